#!/bin/sh
# day.sh [PEAK] [QUIET] [ROUNDS] [MOVES]: runs two generated days, a morning peak of PEAK rows (500 by default) and a quiet day
# of QUIET rows (20,000). For each it prints the rows, the seconds, the rows a second, the greatest memory in KB, and the last
# lines of the log. The limits are the program's defaults unless others are given.
peak="${1:-500}"
quiet="${2:-20000}"
rounds="${3:-2000}"
moves="${4:-75000}"
. "$(dirname "$0")/common.sh"
lift=$(program lift) || exit 1
folder=$(mktemp -d) || exit 1
trap 'rm -rf "$folder"' EXIT
opening() {
    printf 'building 1\nspeed 2000\naccel 1000\nweights 1 1\nfloors 0 4000 8000 12000 16000 20000 24000 28000 32000 36000 40000 44000\n'
    for car in 1 2 3 4; do echo "car $car 8 1000 1000 500 500 all"; done
    printf 'end\nsnapshot 1\nnow 0\n'
    for car in 1 2 3 4; do echo "car $car idle 0 0"; done
    printf 'end\ntime,origin,destination,persons\n'
}
# N rows, EVERY ms apart: every fifth goes down to the lowest floor, all others up from it.
rows() {
    awk -v n="$1" -v every="$2" 'BEGIN {
        for (k = 0; k < n; k++)
            if (k % 5 == 0) print every * k "," 1 + (3 * k) % 11 ",0,1"
            else print every * k ",0," 1 + (7 * k) % 11 ",1"
    }'
}
run() {
    (opening; rows "$2" "$3") > "$folder/day"
    /usr/bin/env time -f '%e %M' -o "$folder/time" "$lift" day --rounds "$rounds" --moves "$moves" < "$folder/day" > "$folder/log"
    awk -v name="$1" -v rows="$2" -v end="$(tail -3 "$folder/log" | tr '\n' ' ')" \
        '{ print name, "rows", rows, "seconds", $1, "a_second", int(rows / $1), "KB", $2, end }' "$folder/time"
}
run peak "$peak" 7000
run quiet "$quiet" 40000
