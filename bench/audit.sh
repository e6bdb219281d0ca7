#!/bin/sh
# audit.sh [ROWS]: a morning peak of ROWS rows (500 by default), by `lift day --certs` and then by `lift audit` of what it read and wrote.
# For each it prints the seconds of the processor and the greatest memory in KB; and last what the audit said, the bytes of the log, and
# what part of the day's seconds the audit took.
rows="${1:-500}"
. "$(dirname "$0")/common.sh"
lift=$(program lift) || exit 1
folder=$(mktemp -d) || exit 1
trap 'rm -rf "$folder"' EXIT
{
    printf 'building 1\nspeed 2000\naccel 1000\nweights 1 1\nfloors 0 4000 8000 12000 16000 20000 24000 28000 32000 36000 40000 44000\n'
    for car in 1 2 3 4; do echo "car $car 8 1000 1000 500 500 all"; done
    printf 'end\nsnapshot 1\nnow 0\n'
    for car in 1 2 3 4; do echo "car $car idle 0 0"; done
    printf 'end\ntime,origin,destination,persons\n'
    # Every fifth call goes down to the lowest floor, all others up from it.
    awk -v n="$rows" 'BEGIN {
        for (k = 0; k < n; k++)
            if (k % 5 == 0) print 7000 * k "," 1 + (3 * k) % 11 ",0,1"
            else print 7000 * k ",0," 1 + (7 * k) % 11 ",1"
    }'
} > "$folder/day"
/usr/bin/env time -f '%U %M' -o "$folder/day_time" "$lift" day --certs < "$folder/day" > "$folder/log"
cat "$folder/day" "$folder/log" > "$folder/whole"
/usr/bin/env time -f '%U %M' -o "$folder/audit_time" "$lift" audit < "$folder/whole" > "$folder/found"
awk -v rows="$rows" -v found="$(head -1 "$folder/found")" -v bytes="$(wc -c < "$folder/log")" '
    FNR == NR { day = $1; print "day rows", rows, "seconds", $1, "KB", $2; next }
    { print "audit seconds", $1, "KB", $2; printf "%s, log of %d bytes, %.3f of the day\n", found, bytes, $1 / day }
' "$folder/day_time" "$folder/audit_time"
