# Each request that is said to be landed has its note, with the three parts.
. .ci/need.sh
need python3 python3
python3 runs/landings.py
