# For the scripts of bench/, which read it: where the repository is (`top`), and the programs that they measure.
top=$(cd "$(dirname "$0")" && until [ -f crates.txt ] || [ "$PWD" = / ]; do cd ..; done && pwd)

# program NAME: the path of `lift` or `lift_bench`, which LIFT or LIFT_BENCH names, or else of the one that was built here. Where there is
# none it says how it is built, and fails: a proof from nothing takes hours, so no script begins one by itself.
program() {
    variable=$(echo "$1" | tr '[:lower:]' '[:upper:]')
    named=$(printenv "$variable")
    named=${named:-$top/crates/$1/out/$1}
    if ! found=$(command -v "$named"); then
        echo "$(basename "$0"): there is no program $named: \`rt run\` in crates/$1 proves and builds it, or $variable names another one" >&2
        return 1
    fi
    case $found in /*) echo "$found" ;; *) echo "$PWD/$found" ;; esac
}
