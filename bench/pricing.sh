#!/bin/sh
# pricing.sh [LIMIT] [TIMES]: prices each car of twelve generated snapshots of 8 to 30 calls at their roots, at the price 0 for
# each call and at twice and four times the mean cost of a call in a first plan, with at most LIMIT visits a pricing (2,000,000
# by default), about 4,000,000 visits each and TIMES times (3 by default). It prints visits and the most visits a second of the
# pricings' own time, and last the harmonic mean of these and how many are above 5,000,000.
limit="${1:-2000000}"
times="${2:-3}"
. "$(dirname "$0")/common.sh"
lift=$(program lift) && lift_bench=$(program lift_bench) || exit 1
folder=$(mktemp -d) || exit 1
trap 'rm -rf "$folder"' EXIT

# priced FACTOR ROUNDS: the program's line for them; how long it took goes to a file.
priced() {
    "$lift_bench" pricing "$1" "$limit" "$2" < "$folder/case" 2> "$folder/took"
}

# Number, floors, cars and calls of each case.
printf '%s\n' "1 10 2 8" "2 12 3 10" "3 12 4 12" "4 16 4 15" "5 20 5 18" "6 20 6 20" "7 24 8 24" "8 30 8 30" "9 8 1 9" \
    "10 14 3 14" "11 18 4 16" "12 26 7 28" | while read -r number floors cars calls; do
    case=$((number - 1))
    "$lift" make --number "$number" --floors "$floors" --cars "$cars" --calls "$calls" > "$folder/case" || exit 1
    for factor in 0 2 4; do
        once=$(priced "$factor" 1) || exit 1
        visits=$(echo "$once" | sed 's/.* visits \([0-9]*\) .*/\1/')
        rounds=$((4000000 / (visits + 1) + 1))
        most=0
        for _ in $(seq 1 "$times"); do
            line=$(priced "$factor" "$rounds") || exit 1
            all=$(echo "$line" | sed 's/.* visits \([0-9]*\) .*/\1/')
            took=$(sed 's/microseconds //' "$folder/took")
            a_second=$((all * 1000000 / (took + 1)))
            [ "$a_second" -gt "$most" ] && most=$a_second
        done
        echo "case $case factor $factor $once a_second $most"
    done
done | awk '{ print; sum += 1 / $NF; if ($NF > 5000000) above += 1 }
    END { printf "harmonic mean %d, above 5000000: %d of %d\n", NR / sum, above, NR }'
