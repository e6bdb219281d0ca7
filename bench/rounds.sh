#!/bin/sh
# rounds.sh [NUMBERS]: how many rounds a search takes. For generated cases of 12 and 20 floors, 2 to 8 cars and 4 to 12 calls,
# NUMBERS of each size (3 by default), it finds the least --rounds with which the case is solved, by halving, and prints it for
# each case and the mean of all. Groups of more than seven calls a car are left out, as in solve.sh.
numbers="${1:-3}"
. "$(dirname "$0")/common.sh"
lift=$(program lift) || exit 1
case=$(mktemp)
trap 'rm -f "$case"' EXIT
solved_with() { [ "$("$lift" solve --brief --rounds "$1" < "$case" | tail -1)" = "# solved" ]; }
least_rounds() {
    solved_with 2000 || return 1
    below=0
    enough=1
    until solved_with "$enough"; do below=$enough; enough=$((enough * 2)); [ "$enough" -gt 2000 ] && enough=2000; done
    while [ $((enough - below)) -gt 1 ]; do
        middle=$(((below + enough) / 2))
        if solved_with "$middle"; then enough=$middle; else below=$middle; fi
    done
    echo "$enough"
}
for floors in 12 20; do
    for cars in 2 4 6 8; do
        for calls in 4 6 8 10 12; do
            [ "$calls" -gt $((cars * 7)) ] && continue
            for number in $(seq 1 "$numbers"); do
                "$lift" make --number "$number" --floors "$floors" --cars "$cars" --calls "$calls" > "$case"
                echo "floors $floors cars $cars calls $calls number $number rounds $(least_rounds || echo more than 2000)"
            done
        done
    done
done | awk '{ print; sum += $NF; if ($(NF - 1) == "rounds") taken += 1 } END { print "mean of " NR ": " sum / NR; print "solved " taken }'
