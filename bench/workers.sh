#!/bin/sh
# workers.sh [TIMES]: solves ten generated cases that take more than a second each, TIMES times (5 by default): alone with one
# worker, as four programs at once with one worker each, and with four workers. It prints the medians in ms, and how many
# times less four workers take than one worker alone and than one of the four programs. The second compares processors that
# are all in use: a lone worker may have a faster clock, or a whole core where two virtual processors share one.
times="${1:-5}"
. "$(dirname "$0")/common.sh"
lift=$(program lift) || exit 1
folder=$(mktemp -d) || exit 1
trap 'rm -r "$folder"' EXIT

# run WORKERS COPY: the ms that one run takes.
run() {
    start=$(date +%s%N)
    "$lift" solve --brief --workers "$1" < "$folder/case" > "$folder/answer$2" || exit 1
    end=$(date +%s%N)
    echo $(((end - start) / 1000000))
}

median() {
    sort -n "$1" | sed -n "$(((times + 1) / 2))p"
}

for case in "2 12 4 24" "3 12 4 24" "1 12 6 28" "2 12 6 28" "3 12 6 24" "2 12 8 28" "1 20 8 28" "2 20 6 28" "3 20 6 28" "1 20 8 32"; do
    set -- $case
    "$lift" make --number "$1" --floors "$2" --cars "$3" --calls "$4" > "$folder/case" || exit 1
    rm -f "$folder/alone" "$folder/each" "$folder/four"
    for _ in $(seq 1 "$times"); do
        run 1 0 >> "$folder/alone"
        for copy in 1 2 3 4; do
            run 1 "$copy" > "$folder/copy$copy" &
        done
        wait
        cat "$folder"/copy? | awk '{ sum += $1 } END { print int(sum / NR) }' >> "$folder/each"
        run 4 5 >> "$folder/four"
        cmp "$folder/answer0" "$folder/answer5" || exit 1
    done
    echo "$case $(median "$folder/alone") $(median "$folder/each") $(median "$folder/four")"
done | awk '{
    printf "number %d floors %d cars %d calls %d: alone %d, of four at once %d, four workers %d ms: %.2f and %.2f times\n",
        $1, $2, $3, $4, $5, $6, $7, $5 / $7, $6 / $7
}'
