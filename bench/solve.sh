#!/bin/sh
# solve.sh [NUMBERS] [WORKERS]: solves generated cases of 12 and 20 floors, 2 to 8 cars and 4 to 20 calls, NUMBERS of each size (3
# by default), and prints for each group how many were solved within the default limits, the cases, and the ms for all of them.
# Groups of more than seven calls a car are left out: a single car cannot be priced there within its limit of partial tours.
numbers="${1:-3}"
workers="${2:-1}"
. "$(dirname "$0")/common.sh"
lift=$(program lift) || exit 1
for floors in 12 20; do
    for cars in 2 4 6 8; do
        for calls in 4 6 8 10 12 15 20; do
            [ "$calls" -gt $((cars * 7)) ] && continue
            solved=0
            start=$(date +%s%N)
            for number in $(seq 1 "$numbers"); do
                last=$("$lift" make --number "$number" --floors "$floors" --cars "$cars" --calls "$calls" \
                    | "$lift" solve --brief --workers "$workers" | tail -1)
                [ "$last" = "# solved" ] && solved=$((solved + 1))
            done
            end=$(date +%s%N)
            echo "floors $floors cars $cars calls $calls solved $solved of $numbers ms $(((end - start) / 1000000))"
        done
    done
done
