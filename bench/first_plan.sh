#!/bin/sh
# first_plan.sh [N [ROUNDS]]: compares first plans with cheaper ones. First with the cheapest ones, on N small snapshots of each kind
# (20 by default). Then on generated cases with the costs of first_plan_costs.txt, lines of floors, cars, calls, number and the least cost
# known, after at most ROUNDS rounds of moving calls (as many as `solve` makes, by default): for each group the mean and the greatest
# excess in hundredths of a per cent, and the ms for its plans.
. "$(dirname "$0")/common.sh"
lift_bench=$(program lift_bench) || exit 1
"$lift_bench" first_plan "${1:-20}" || exit 1
known=$top/bench/first_plan_costs.txt
for group in $(awk '{ print $1 "," $2 "," $3 }' "$known" | uniq); do
    sizes=$(echo "$group" | tr , ' ')
    count=$(grep -c "^$sizes " "$known")
    start=$(date +%s%N)
    costs=$("$lift_bench" first_plan $sizes "$count" ${2:+"$2"}) || exit 1
    end=$(date +%s%N)
    echo "$costs" | awk -v group="$sizes" -v ms=$(((end - start) / 1000000)) '
        NR == FNR { known[$1, $2, $3, $4] = $5; next }
        { excess = ($5 / known[$1, $2, $3, $4] - 1) * 10000; sum += excess; if (excess > worst || FNR == 1) worst = excess }
        END { printf "floors cars calls %s plans %d excess_mean %.0f excess_greatest %.0f ms %d\n", group, FNR, sum / FNR, worst, ms }
    ' "$known" -
done
