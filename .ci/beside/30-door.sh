# Code above the door goes through it.
. .ci/need.sh
need python3 python3
python3 runs/door.py
