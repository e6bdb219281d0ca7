#!/bin/sh
# claims.sh [OTHER]: what the claims of a certificate cost. For generated cases with one worker it counts the instructions, in
# millions, of `solve --brief`, of `solve` and of `check` of what that wrote (callgrind of valgrind: no clock, the same count in each
# run), and prints for each case the sum of the claims, the three counts, what `solve` takes more than `solve --brief` for each 100
# of `check`, and, where OTHER is another build of the program, its `solve` and what this one takes for each 100 of it.
other="$1"
. "$(dirname "$0")/common.sh"
lift=$(program lift) || exit 1
folder=$(mktemp -d) || exit 1
trap 'rm -rf "$folder"' EXIT
# count INPUT OUTPUT PROGRAM WORDS..: the instructions, in thousands
count() {
    from="$1"; to="$2"; shift 2
    valgrind --tool=callgrind --callgrind-out-file=/dev/null "$@" < "$from" 2> "$folder/told" > "$to"
    awk '/Collected/ { print int($NF / 1000) }' "$folder/told"
}
while read -r floors cars calls number; do
    "$lift" make --number "$number" --floors "$floors" --cars "$cars" --calls "$calls" > "$folder/case"
    brief=$(count "$folder/case" /dev/null "$lift" solve --brief)
    whole=$(count "$folder/case" "$folder/answer" "$lift" solve)
    cat "$folder/case" "$folder/answer" > "$folder/input"
    check=$(count "$folder/input" "$folder/verdict" "$lift" check)
    claims=$(awk '$1 == "worth" { sum += $4 } END { printf "%d", sum }' "$folder/answer")
    then=
    [ -n "$other" ] && then=$(count "$folder/case" /dev/null "$other" solve)
    echo "$floors $cars $calls $number $claims $brief $whole $check $(head -c 3 "$folder/verdict") $then"
done <<CASES | awk '{ more = $7 - $6
        printf "floors %d cars %d calls %d number %d claims %d brief %.1f solve %.1f check %.1f more %.1f per 100 of check %.1f verdict %s", $1, $2, $3, $4, $5, $6 / 1000, $7 / 1000, $8 / 1000, more / 1000, 100 * more / $8, $9
        if (NF > 9) { printf " other %.1f per 100 of it %.1f", $10 / 1000, 100 * $7 / $10; sum += $10; now += $7 }
        print ""; pass += more; checks += $8 }
    END { printf "all: more per 100 of check %.1f", 100 * pass / checks; if (sum) printf ", solve per 100 of the other %.1f", 100 * now / sum; print "" }'
12 2 4 1
12 4 8 1
20 6 10 2
12 2 12 1
20 8 12 1
12 2 14 1
12 4 15 2
20 6 15 1
12 4 20 1
20 4 20 2
12 8 20 1
12 4 24 1
CASES
