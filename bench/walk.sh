#!/bin/sh
# walk.sh [TOURS]: walks the partial tours of a car depth first (first move, next move, push, settled cost, pop) on snapshots of 8
# to 128 calls, TOURS partial tours each (8,000,000 by default), and prints partial tours a second.
tours="${1:-8000000}"
. "$(dirname "$0")/common.sh"
lift=$(program lift) && lift_bench=$(program lift_bench) || exit 1
case=$(mktemp) || exit 1
trap 'rm -f "$case"' EXIT

# A generated case with this number and these floors, cars and calls.
made() {
    "$lift" make --number "$1" --floors "$2" --cars "$3" --calls "$4"
}

# Sixteen cars in the building of a generated case of 24 floors, and the calls of two such cases.
largest() {
    { made 1 24 8 64; made 2 24 8 64; } | awk '
    /^floors/ { heights = $0 }
    /^call/ { $2 += 64 * (building == 2); calls = calls $0 "\n" }
    /^building/ { building += 1 }
    END {
        print "building 2\nspeed 2000\naccel 1000\nweights 1 1\npatience 0 0"
        print heights
        for (car = 1; car <= 16; car++) print "car " car " 8 1000 1000 500 500 all"
        print "end\nsnapshot 1\nnow 600000"
        for (car = 1; car <= 16; car++) print "car " car " idle " car - 1 " 600000"
        print calls "end"
    }'
}

for sizes in "1 8 1 8" "1 12 4 16" "1 20 6 32" "1 24 8 64" largest; do
    # shellcheck disable=SC2086
    if [ "$sizes" = largest ]; then largest; else made $sizes; fi > "$case" || exit 1
    start=$(date +%s%N)
    line=$("$lift_bench" walk "$tours" < "$case") || exit 1
    end=$(date +%s%N)
    walked=$(echo "$line" | sed 's/.* tours \([0-9]*\) .*/\1/')
    echo "$line a_second $((walked * 1000000000 / (end - start)))"
done
