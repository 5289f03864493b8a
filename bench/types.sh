#!/usr/bin/env bash
# Types files with 50,000 uses of 250 names, with 20,000 declarations in one block, and with as many uses
# of the locals of 100 scopes that stand in one another, and each with twice as many. Prints the time of
# one call of `check` and how both compare.
#
# It needs /usr/bin/time, and the program crates/types_bench, which it proves and builds where it isn't
# built yet.
set -eu
top=$(cd "$(dirname "${BASH_SOURCE[0]}")/.." && pwd)
crate=$top/crates/types_bench
ours=$crate/out/types_bench
folder=$(mktemp -d)
trap 'rm -rf "$folder"' EXIT

[ -x "$ours" ] || (cd "$crate" && rt run) >"$folder/build.log" 2>&1
[ -x "$ours" ] || { echo "types_bench was not built" >&2; tail "$folder/build.log" >&2; exit 1; }

rounds=20

# The seconds of user and system time of a run with so many rounds.
seconds() {
    /usr/bin/time -f '%U %S' -o "$folder/time" "$ours" "$1" "$2" "$3" >"$folder/said"
    awk '{ printf "%.3f", $1 + $2 }' "$folder/time"
}

# The milliseconds of one call: what the rounds take longer than making the file.
milliseconds() {
    local without with
    without=$(seconds "$1" "$2" 0)
    with=$(seconds "$1" "$2" "$rounds")
    awk -v with="$with" -v without="$without" -v rounds="$rounds" 'BEGIN { printf "%.2f", (with - without) * 1000 / rounds }'
}

# measure FAMILY N: its line.
measure() {
    local once twice
    once=$(milliseconds "$1" "$2")
    twice=$(milliseconds "$1" $((2 * $2)))
    awk -v family="$1" -v n="$2" -v once="$once" -v twice="$twice" 'BEGIN {
        ratio = "-"
        if (once > 0) ratio = sprintf("%.1f", twice / once)
        printf "%s: %d in %s ms, %d in %s ms; x %s\n", family, n, once, 2 * n, twice, ratio
    }'
}

measure uses 50000
measure declarations 20000
measure scopes 50000
