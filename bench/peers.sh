#!/bin/bash
# peers.sh [LIMIT [CASES]]: how long `lift` and two other ways take to a proved optimum: a set partitioning
# model that lists the tours of each car (`bench/peers/columns.cpp`) and is solved by CBC, and a constraint
# model (`bench/peers/elevators.mzn`) solved by Gecode. Each has LIMIT seconds of one processor a case (60 by
# default) and 8 GB. CASES is a text with a line `FLOORS CARS CALLS NUMBER` for each case that `lift make`
# makes; the table below by default. It prints for each case and way the seconds of the processor, with those
# of writing the model, and the cost, or `-` where no proof came; a line `DIFFER` where two costs differ, and
# then the status is 1. LIFT names another built program.
limit=${1:-60}
. "$(dirname "$0")/peers/ways.sh"
table='12 4 6 1
12 4 8 1
12 4 12 1
12 4 14 1
12 4 20 1
12 4 30 1
12 8 40 1
20 8 50 1'

# told WAY: the seconds that it took, and the cost
told() {
    /usr/bin/env time -q -f '%U %S' -o "$work/time" bash -c "by_$1" > "$work/cost" 2> "$work/errors"
    awk -v limit="$limit" -v cost="$(cat "$work/cost")" \
        'END { it = $1 + $2; printf "%.2f %s\n", it, (cost == "" || it > limit ? "-" : cost) }' "$work/time"
}

status=0
echo 'floors cars calls number | lift: seconds cost | columns: seconds cost | constraints: seconds cost'
while read -r floors cars calls number; do
    "$lift" make --floors "$floors" --cars "$cars" --calls "$calls" --number "$number" > "$work/case"
    rows=("$(told lift)" "$(told columns)" "$(told constraints)")
    echo "$floors $cars $calls $number | ${rows[0]} | ${rows[1]} | ${rows[2]}"
    costs=$(printf '%s\n' "${rows[@]#* }" | grep -v -- '-' | sort -u | wc -l)
    if [ "$costs" -gt 1 ]; then
        echo DIFFER
        status=1
    fi
done < <(if [ $# -gt 1 ]; then cat "$2"; else echo "$table"; fi)
exit "$status"
