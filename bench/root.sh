#!/bin/sh
# root.sh [NUMBERS [SECONDS]]: what turns at the root tell of generated cases of 12 floors, 8, 14 and 20 calls and 2, 4 and 8 cars: for
# each of these nine sizes NUMBERS cases (2 by default). `root` and `solve` have SECONDS for each case (60 by default); one for which
# `root` takes longer is printed as late, and where `solve` does, its cost and bound are `-`. It prints the answer (best, gap, moves,
# pairs, late), the bound, half the cost of the plan in halves, the cost and the bound that `solve` finds, and the seconds of `root`; and
# last how many cases had each answer. LIFT names another built program.
numbers="${1:-2}"
seconds="${2:-60}"
. "$(dirname "$0")/common.sh"
lift=$(program lift) || exit 1
folder=$(mktemp -d) || exit 1
trap 'rm -rf "$folder"' EXIT
for cars in 2 4 8; do
    for calls in 8 14 20; do
        for number in $(seq 1 "$numbers"); do
            "$lift" make --number "$number" --floors 12 --cars "$cars" --calls "$calls" > "$folder/case"
            start=$(date +%s%N)
            timeout "$seconds" "$lift" root < "$folder/case" > "$folder/root"
            [ $? -eq 124 ] && echo "# late" > "$folder/root"
            end=$(date +%s%N)
            timeout "$seconds" "$lift" solve --brief < "$folder/case" > "$folder/plan"
            [ $? -eq 124 ] && echo "# late" > "$folder/plan"
            awk -v cars="$cars" -v calls="$calls" -v number="$number" -v ms=$(((end - start) / 1000000)) '
                BEGIN { bound = half = cost = least = "-" }
                FNR == NR && $1 == "bound" { bound = $2 }
                FNR == NR && $1 == "mixture" { half = sprintf("%.1f", $2 / 2) }
                FNR == NR && $1 == "#" { answer = $2 == "open" ? $3 : $2 }
                FNR != NR && $1 == "cost" { cost = $2 }
                FNR != NR && $1 == "bound" { least = $2 }
                END { printf "cars %d calls %d number %d %s bound %s half %s cost %s least %s seconds %.3f\n", cars, calls, number, answer, bound, half, cost, least, ms / 1000 }
            ' "$folder/root" "$folder/plan"
        done
    done
done | awk '{ print; answers[$7]++ } END { print "best", answers["best"] + 0, "gap", answers["gap"] + 0, "open moves", answers["moves"] + 0, "open pairs", answers["pairs"] + 0, "late", answers["late"] + 0 }'
