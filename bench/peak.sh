#!/bin/sh
# peak.sh [ROWS] [WORKERS] [EVERY]: runs `lift day` of a heavy peak: 20 floors, eight cars, ROWS rows (300 by default), one each EVERY ms in
# the mean (1800 by default) at random gaps, half of them up from the hall and the others between any two floors, with WORKERS workers (2
# by default) within the default limits. It prints the rows, the seconds, the rows a second, the greatest memory in KB, the total
# line of the log and its end. LIFT is the program.
rows="${1:-300}"
workers="${2:-2}"
every="${3:-1800}"
. "$(dirname "$0")/common.sh"
lift=$(program lift) || exit 1
folder=$(mktemp -d) || exit 1
trap 'rm -rf "$folder"' EXIT
{
    printf 'building 1\nspeed 2000\naccel 1000\nweights 1 1\nfloors'
    for floor in $(seq 0 19); do printf ' %d' $((4000 * floor)); done
    echo
    for car in 1 2 3 4 5 6 7 8; do echo "car $car 8 1000 1000 500 500 all"; done
    printf 'end\nsnapshot 1\nnow 0\n'
    for car in 1 2 3 4 5 6 7 8; do echo "car $car idle 0 0"; done
    printf 'end\ntime,origin,destination,persons\n'
    # the random numbers are those of x -> 16807 x modulo 2^31 - 1, so that each run has the same day; the gaps are exponential
    awk -v n="$rows" -v every="$every" 'function draw() { x = (16807 * x) % 2147483647; return x / 2147483647 }
        BEGIN {
            x = 20261
            for (k = 0; k < n; k++) {
                now += int(-every * log(draw())) + 1
                if (draw() < 0.5) print now ",0," 1 + int(19 * draw()) ",1"
                else {
                    origin = int(20 * draw())
                    destination = int(19 * draw())
                    print now "," origin "," destination + (destination >= origin) ",1"
                }
            }
        }'
} > "$folder/day"
/usr/bin/env time -f '%e %M' -o "$folder/time" "$lift" day --workers "$workers" < "$folder/day" > "$folder/log"
awk -v rows="$rows" -v end="$(tail -3 "$folder/log" | tr '\n' ' ')" \
    '{ print "rows", rows, "seconds", $1, "a_second", int(100 * rows / $1) / 100, "KB", $2, end }' "$folder/time" | tail -1
