# A must-fail edit shows something only where a fact fails: runs/logs.py judges the kept logs of each kind, then that of every edit.
. .ci/need.sh
need python3 python3
python3 runs/logs.py
