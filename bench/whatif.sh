#!/bin/sh
# whatif.sh [NUMBERS] [CARS] [CALLS] [WORKERS]: what the last call of generated cases costs with each car. For NUMBERS cases (10 by
# default) of 12 floors, CARS cars (8) and CALLS calls (20) it prints the ms, the extras that are exact, between and none, and how
# far the ends of those between are apart at most.
numbers="${1:-10}"
cars="${2:-8}"
calls="${3:-20}"
workers="${4:-1}"
. "$(dirname "$0")/common.sh"
lift=$(program lift) || exit 1
for number in $(seq 1 "$numbers"); do
    start=$(date +%s%N)
    text=$("$lift" make --number "$number" --cars "$cars" --calls "$calls" | "$lift" whatif --workers "$workers")
    end=$(date +%s%N)
    echo "$text" | awk -v number="$number" -v ms=$(((end - start) / 1000000)) '
        $3 == "exact" { exact++ }
        $3 == "none" { none++ }
        $3 == "between" { between++; if ($5 - $4 > most) most = $5 - $4 }
        END { print "number", number, "ms", ms, "exact", exact + 0, "between", between + 0, "none", none + 0, "apart", most + 0 }'
done | awk '{ print; ms += $4; exact += $6; between += $8 } END { print "mean of " NR ": " ms / NR " ms; " exact " exact, " between " between" }'
