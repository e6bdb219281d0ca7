# Ways to a proved optimum of the case in "$work/case", for bench/peers.sh and bench/peers/agree.sh: each
# function prints the cost where its program comes to a proof within "$limit" seconds of a processor and 8 GB,
# and else nothing. They need g++ and Debian's coinor-cbc, minizinc and flatzinc.
. "$(dirname "${BASH_SOURCE[0]}")/../common.sh"
lift=$(program lift) || exit 1
work=$(mktemp -d) || exit 1
trap 'rm -rf "$work"' EXIT
g++ -std=c++17 -O2 -o "$work/columns" "$top/bench/peers/columns.cpp" || exit 1

within_limits() {
    ulimit -t "$limit" -v 8000000
    "$@" 2> /dev/null
}

by_lift() {
    within_limits "$lift" solve --brief < "$work/case" > "$work/answer"
    [ "$(tail -1 "$work/answer")" = '# solved' ] && awk '$1 == "cost" { print $2 }' "$work/answer"
}

by_columns() {
    "$top/bench/peers/data" columns < "$work/case" > "$work/numbers"
    (within_limits "$work/columns" < "$work/numbers" > "$work/model.lp") || return
    rm -f "$work/solution"
    within_limits cbc "$work/model.lp" solve solution "$work/solution" > /dev/null
    [ -f "$work/solution" ] && sed -n '1s/^Optimal - objective value *\([0-9]*\)\.0*$/\1/p' "$work/solution"
}

by_constraints() {
    "$top/bench/peers/data" constraints < "$work/case" > "$work/values.dzn"
    within_limits minizinc --solver gecode "$top/bench/peers/elevators.mzn" "$work/values.dzn" > "$work/found"
    grep -q '^==========' "$work/found" && awk '$1 == "cost" { cost = $2 } END { print cost }' "$work/found"
}

export top lift work limit
export -f within_limits by_lift by_columns by_constraints
