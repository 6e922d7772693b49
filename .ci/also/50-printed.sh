# Every command and output that a page of this repository prints.
. .ci/native.sh
need python3 python3
python3 runs/promised.py && python3 runs/printed.py
