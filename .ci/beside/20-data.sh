# The lists in data/ are what data/make.py writes, the table of crates/paper/specs/Serials.antt has their serial numbers, and that of
# crates/words/src/kinds.rt what they are shown as.
. .ci/need.sh
need python3 python3
python3 data/make.py --check && python3 data/scene.py --check && python3 data/serials.py --check &&
    echo "data: as make.py and scene.py write it, with the serial numbers that are computed and the kinds that the programs show"
