#!/bin/bash
# large.sh [CASES]: solves generated cases of 15 to 50 calls within the default limits, with one worker, and checks each answer. CASES is a
# text with a line `FLOORS CARS CALLS NUMBER` for each; without it the table below. For each case it prints how the search ended, cost and
# bound, rounds and visits as `--progress` tells them at the end, the seconds of the processor that the search takes alone
# (`solve --brief`), the search with its certificate (`solve`) and `check`, and the bytes of the certificate; `-` where a run took more
# than LIMIT seconds of the clock (300 by default). LIFT is the program.
limit=${LIMIT:-300}
. "$(dirname "$0")/common.sh"
lift=$(program lift) || exit 1
work=$(mktemp -d) || exit 1
trap 'rm -rf "$work"' EXIT
table='12 2 15 1
12 4 20 1
20 4 20 2
12 2 20 2
20 2 20 1
12 4 30 1
12 4 30 2
12 4 30 3
20 4 30 1
12 6 30 1
12 4 40 1
20 4 40 1
12 6 40 1
20 6 40 1
12 8 40 1
20 8 50 1'

# seconds FILE COMMAND: runs it, with what it writes in FILE and FILE.told, and prints the seconds of the processor that it took
seconds() {
    local into=$1
    shift
    /usr/bin/env time -f '%U' -o "$work/time" timeout "$limit" "$@" > "$into" 2> "$into.told"
    if [ $? -eq 124 ]; then echo -; else tail -1 "$work/time"; fi
}

echo 'floors cars calls number | ends cost bound | rounds visits | search, with certificate, check (s) | certificate (bytes)'
if [ $# -gt 0 ]; then cat "$1"; else echo "$table"; fi | while read -r floors cars calls number; do
    "$lift" make --floors "$floors" --cars "$cars" --calls "$calls" --number "$number" > "$work/case"
    brief=$(seconds "$work/brief" "$lift" solve --brief --progress < "$work/case")
    told=$(awk '$1 == "rounds" { print $2, $4 }' "$work/brief.told" | tail -1)
    ends=$(tail -1 "$work/brief" | sed 's/^# //')
    cost=$(awk '$1 == "cost" { print $2; exit }' "$work/brief")
    bound=$(awk '$1 == "bound" { print $2; exit }' "$work/brief")
    whole=$(seconds "$work/answer" "$lift" solve < "$work/case")
    cat "$work/case" "$work/answer" > "$work/whole"
    check=$(seconds "$work/verdict" "$lift" check < "$work/whole")
    bytes=$(sed -n '/^certificate /,$p' "$work/answer" | wc -c)
    echo "$floors $cars $calls $number | ${ends:--} ${cost:--} ${bound:--} | ${told:--} | $brief $whole $check, $(cut -d' ' -f1 "$work/verdict") | $bytes"
done
