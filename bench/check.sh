#!/bin/sh
# check.sh [NUMBERS] [WORKERS]: solves generated cases as bench/solve.sh does, NUMBERS of each size (2 by default), and checks
# what was written. For each case it prints the ms of `solve` and of `check`, the bytes of the certificate, and the verdict.
numbers="${1:-2}"
workers="${2:-1}"
. "$(dirname "$0")/common.sh"
lift=$(program lift) || exit 1
folder=$(mktemp -d) || exit 1
trap 'rm -rf "$folder"' EXIT
for floors in 12 20; do
    for cars in 2 4 6 8; do
        for calls in 4 6 8 10 12 15 20; do
            [ "$calls" -gt $((cars * 7)) ] && continue
            for number in $(seq 1 "$numbers"); do
                "$lift" make --number "$number" --floors "$floors" --cars "$cars" --calls "$calls" > "$folder/case"
                start=$(date +%s%N)
                "$lift" solve --workers "$workers" < "$folder/case" > "$folder/answer"
                solved=$(date +%s%N)
                cat "$folder/case" "$folder/answer" > "$folder/input"
                before=$(date +%s%N)
                verdict=$("$lift" check --workers "$workers" < "$folder/input")
                checked=$(date +%s%N)
                bytes=$(sed -n '/^certificate/,$p' "$folder/answer" | wc -c)
                echo "floors $floors cars $cars calls $calls number $number solve $(((solved - start) / 1000000)) check $(((checked - before) / 1000000)) bytes $bytes $verdict"
            done
        done
    done
done
