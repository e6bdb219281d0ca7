#!/bin/bash
# agree.sh [COUNT [FIRST [LIMIT]]]: of COUNT drawn cases (100 by default), numbered from FIRST on (1), it
# compares the costs of `lift`, of the set partitioning model and of the constraint model, each of which has
# LIMIT seconds (60) a case. It prints each case in which two of them differ, and last how many cases there
# were, how many of them `lift` refused, in how many each model came to a proof, and in how many something
# differed; the status is 1 if there are any.
count=${1:-100}
first=${2:-1}
limit=${3:-60}
. "$(dirname "$0")/ways.sh"
refused=0 columns=0 constraints=0 differ=0
for number in $(seq "$first" $((first + count - 1))); do
    "$top/bench/peers/draw" "$number" > "$work/case"
    cost=$(bash -c by_lift)
    if grep -q '^refused' "$work/answer"; then
        refused=$((refused + 1))
        continue
    fi
    listed=$(bash -c by_columns)
    constrained=$(bash -c by_constraints)
    [ -n "$listed" ] && columns=$((columns + 1))
    [ -n "$constrained" ] && constraints=$((constraints + 1))
    if [ -z "$cost" ] || [ "${listed:-$cost}" != "$cost" ] || [ "${constrained:-$cost}" != "$cost" ]; then
        differ=$((differ + 1))
        echo "case $number lift ${cost:--} columns ${listed:--} constraints ${constrained:--}"
    fi
done
echo "cases $count refused $refused columns $columns constraints $constraints differ $differ"
[ "$differ" -eq 0 ]
