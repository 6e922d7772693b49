# The header and the wrappers have the refusals, reasons and calls of the proved code.
. .ci/need.sh
need python3 python3
python3 runs/boundary.py
