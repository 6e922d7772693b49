# The programs' runs: tables of arguments and expected output, side by side; and the programs driven as by a script.
. .ci/need.sh
need python3 python3
need git git
need cc gcc
jobs=()
for table in judge extends comparing programs remedies christening desk recording driven writers; do
    python3 "runs/$table.py" &
    jobs+=($!)
done
status=0
for job in "${jobs[@]}"; do wait "$job" || status=1; done
exit $status
