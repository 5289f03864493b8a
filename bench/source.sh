#!/usr/bin/env bash
# Reads texts of one form, and of the same form twice as long: statements in a row, expressions of 120 operators,
# declarations; and 127 levels of parentheses, of blocks and of `if`, again and again. Prints the time of one
# reading and the memory that it takes at its peak beyond the text, and how both compare.
#
# It needs /usr/bin/time, and the program crates/source_bench, which it proves and builds where it isn't built yet.
set -eu
top=$(cd "$(dirname "${BASH_SOURCE[0]}")/.." && pwd)
crate=$top/crates/source_bench
ours=$crate/out/source_bench
folder=$(mktemp -d)
trap 'rm -rf "$folder"' EXIT

[ -x "$ours" ] || (cd "$crate" && rt run) >"$folder/build.log" 2>&1
[ -x "$ours" ] || { echo "source_bench was not built" >&2; tail "$folder/build.log" >&2; exit 1; }

rounds=10

# times N WORD: the word so many times.
times() {
    awk -v n="$1" -v word="$2" 'BEGIN { for (i = 0; i < n; i++) printf "%s", word }'
}

# text FAMILY N
text() {
    printf 'module T(event !o, bool ?a) {\n'
    case $1 in
        statements) times "$2" $'emit o; pause;\n' ;;
        expressions) times "$2" "m=$(times 120 'a&')a;"$'\n' ;;
        declarations) times "$2" $'bv[8] x, y;\n' ;;
        parentheses) times "$2" "m = $(times 125 '(')a$(times 125 ')');"$'\n' ;;
        blocks) times "$2" "$(times 126 '{')pause;$(times 126 '}')"$'\n' ;;
        ifs) times "$2" "$(times 125 'if (a) ')pause;"$'\n' ;;
    esac
    printf '}\n'
}

# The seconds of user and system time of a run with so many rounds, and its peak in KiB.
run() {
    /usr/bin/time -f '%U %S %M' -o "$folder/time" "$ours" "$1" <"$folder/text" >"$folder/said"
    awk '{ printf "%.3f %d", $1 + $2, $3 }' "$folder/time"
}

# The milliseconds and the KiB of one reading: what the rounds take more than none.
cost() {
    local without with
    text "$1" "$2" >"$folder/text"
    without=$(run 0)
    with=$(run "$rounds")
    awk -v with="$with" -v without="$without" -v rounds="$rounds" 'BEGIN {
        split(with, w); split(without, o)
        printf "%.2f %d", (w[1] - o[1]) * 1000 / rounds, w[2] - o[2]
    }'
}

# measure FAMILY N: its line.
measure() {
    local once twice
    once=$(cost "$1" "$2")
    twice=$(cost "$1" $((2 * $2)))
    awk -v family="$1" -v n="$2" -v once="$once" -v twice="$twice" -v said="$(cat "$folder/said")" '
    function ratio(a, b) { return a > 0 ? sprintf("%.1f", b / a) : "-" }
    BEGIN {
        split(once, a); split(twice, b)
        printf "%s: %d in %s ms, %d in %s ms; x %s\n", family, n, a[1], 2 * n, b[1], ratio(a[1], b[1])
        printf "    peak %d KiB, %d KiB; x %s (the longer one: %s bytes)\n", a[2], b[2], ratio(a[2], b[2]), said
    }'
}

measure statements 30000
measure expressions 2000
measure declarations 10000
measure declarations 40000
measure parentheses 1500
measure blocks 1800
measure ifs 500
