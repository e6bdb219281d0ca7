#!/bin/sh
# read_text.sh [ROUNDS]: reads and writes the text of a large building with a snapshot (64 floors with stated times, 16 cars,
# 128 groups aboard, 128 calls) and a short answer from memory, in ROUNDS rounds (1,000 by default), and prints MB (of 1,000,000
# bytes) a second of processor time, where a round reads the text once and writes it once. Then the same of a text that is ten
# times as long, ten such cases one after another, in a tenth of the rounds, and how many times as long one of its rounds takes:
# about ten, since what is read costs as many steps as it has bytes. Then both of a small case with a long answer: 2,048 stops
# at which eight calls board.
rounds="${1:-1000}"
. "$(dirname "$0")/common.sh"
lift_bench=$(program lift_bench) || exit 1
folder=$(mktemp -d) || exit 1
trap 'rm -rf "$folder"' EXIT
awk 'BEGIN {
    print "building 3"; print "speed 6100"; print "accel 1300"; print "weights 3 2"; print "patience 30000 5"
    line = "floors"; for (f = 0; f < 64; f++) line = line " " 3300 * f + f % 7; print line
    for (f = 0; f < 64; f++) {
        line = "times"
        for (g = 0; g < 64; g++) line = line " " (f == g ? 0 : 2000 + 700 * (f < g ? g - f : f - g) + (f < g ? 13 : 0))
        print line
    }
    for (c = 1; c <= 16; c++) print "car " c " 64 " 1000 + c " 1200 400 350 all"
    print "end"; print "snapshot 1"; print "now 600000"
    for (c = 1; c <= 16; c++) print "car " c " idle " 2 * c " " 600000 + 10 * c
    for (c = 1; c <= 16; c++) for (k = 1; k <= 8; k++) print "aboard " c " " 1000 + 8 * c + k " " 2 * c + k " " 1 + k % 3 " " 500000 + k
    for (k = 0; k < 128; k++) print "call " 1 + k " " k % 64 " " (k % 64 + 1 + k % 11) % 64 " " 1 + k % 4 " " 400000 + 977 * k " any"
    print "end"; print "answer 1"; print "cost 987654321"; print "bound 987654320"
    for (c = 1; c <= 16; c++) print "tour " c
    print "end"
}' > "$folder/large"
awk 'BEGIN {
    print "building 2"; print "speed 2500"; print "accel 1000"; print "weights 2 1"; print "patience 40000 3"
    print "floors 0 4000 8000 12000"
    for (c = 1; c <= 4; c++) print "car " c " 12 1000 1200 500 600 all"
    print "end"; print "snapshot 1"; print "now 600000"
    for (c = 1; c <= 4; c++) print "car " c " idle " c - 1 " " 600000 + 10 * c
    for (k = 0; k < 64; k++) print "call " 1001 + k " " k % 4 " " (k % 4 + 1 + k % 3) % 4 " 1 " 400000 + 977 * k " any"
    print "end"; print "answer 1"; print "cost 987654321"; print "bound 987654320"
    for (c = 1; c <= 4; c++) {
        print "tour " c
        for (s = 0; s < 512; s++) {
            line = "stop " s % 4
            for (k = 0; k < 8; k++) line = line " " 1001 + 8 * (s % 8) + k
            print line
        }
    }
    print "end"
}' > "$folder/answer"

# The program's line, and the processor time that it took, in seconds: `sh` tells that of its children by `times`.
measured() {
    sh -c '"$0" read "$1" "$2" < "$3" && times' "$lift_bench" "$1" "$2" "$3"
}

# What `measured` printed for one case and for ten, with the speed and the times.
shown() {
    awk '
    function seconds(word, parts) { split(word, parts, /[ms]/); return 60 * parts[1] + parts[2] }
    /^bytes/ { line = $0; bytes = $2; count = $4 }
    # the last line of a run: the processor time of the children
    !/^bytes/ { if (++lines % 2) next
        each = (seconds($1) + seconds($2)) / count
        printf "%s MB_a_second %.0f us_a_round %.0f\n", line, bytes / each / 1000000, each * 1000000
        if (first) printf "times_as_long %.1f\n", each / first
        else first = each }'
}

for text in large answer; do
    echo "$text"
    measured "$rounds" 1 "$folder/$text" > "$folder/one" || exit 1
    measured "$((rounds / 10))" 10 "$folder/$text" > "$folder/ten" || exit 1
    cat "$folder/one" "$folder/ten" | shown
done
