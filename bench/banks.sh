#!/bin/sh
# banks.sh [TIMES] [ROWS] [BANKS]: runs BANKS banks (16 by default) with ROWS rows each (500) of a morning peak, TIMES times (5) with
# one worker and with four, in turn. It prints the seconds and the greatest memory in KB of each run, the means, and how many times
# less time four workers took.
times="${1:-5}"
rows="${2:-500}"
banks="${3:-16}"
. "$(dirname "$0")/common.sh"
lift=$(program lift) || exit 1
folder=$(mktemp -d) || exit 1
trap 'rm -rf "$folder"' EXIT
echo 'banks 1' > "$folder/input"
for bank in $(seq 1 "$banks"); do
    echo "bank $bank"
    printf 'building 1\nspeed 2000\naccel 1000\nweights 1 1\nfloors 0 4000 8000 12000 16000 20000 24000 28000 32000 36000 40000 44000\n'
    for car in 1 2 3 4; do echo "car $car 8 1000 1000 500 500 all"; done
    printf 'end\nsnapshot 1\nnow 0\n'
    for car in 1 2 3 4; do echo "car $car idle 0 0"; done
    echo end
done >> "$folder/input"
# Rows 7,000 ms apart in each bank: every fifth goes down to the lowest floor, all others up from it, in another order in each.
awk -v n="$rows" -v banks="$banks" 'BEGIN {
    print "rows"
    print "bank,time,origin,destination,persons"
    for (k = 0; k < n; k++)
        for (b = 1; b <= banks; b++)
            if (k % 5 == 0) print b "," 7000 * k "," 1 + (3 * k + b) % 11 ",0,1"
            else print b "," 7000 * k ",0," 1 + (7 * k + b) % 11 ",1"
}' >> "$folder/input"
for _ in $(seq 1 "$times"); do
    for workers in 1 4; do
        /usr/bin/env time -f "%e %M" -o "$folder/time" "$lift" banks --workers "$workers" < "$folder/input" > "$folder/log$workers"
        echo "workers $workers seconds $(tail -1 "$folder/time" | sed 's/ / KB /')"
    done
    cmp "$folder/log1" "$folder/log4" || exit 1
done | awk '{ print; sum[$2] += $4; runs[$2]++ } END {
    printf "means %.2f and %.2f seconds: %.2f times\n", sum[1] / runs[1], sum[4] / runs[4], (sum[1] / runs[1]) / (sum[4] / runs[4])
}'
