#!/usr/bin/env bash
# Builds families of decision diagrams: the adders of 8 to 64 bits in a good order, the hidden weighted bit
# function of 10 to 18 variables, and N queens for N up to 8. It prints nodes, time and peak memory. Where
# BuDDy is installed (Debian's package libbdd-dev, and a C compiler), the same is built in BuDDy by the same
# operations in the same order. Both then have to find the same least bits, and ratios are printed beside.
# At the end a chain of 100,000 variables is built, evaluated and negated on a stack of 256 KiB.
#
# It needs /usr/bin/time, and the program crates/diagrams_bench, which it proves and builds where it isn't
# built yet.
#
# What it printed once is in docs/DECISIONS.md, "Diagrams".
set -eu
top=$(cd "$(dirname "${BASH_SOURCE[0]}")/.." && pwd)
crate=$top/crates/diagrams_bench
ours=$crate/out/diagrams_bench
folder=$(mktemp -d)
trap 'rm -rf "$folder"' EXIT

[ -x "$ours" ] || (cd "$crate" && rt run) >"$folder/build.log" 2>&1
[ -x "$ours" ] || { echo "diagrams_bench was not built" >&2; tail "$folder/build.log" >&2; exit 1; }
buddy=
if [ -e /usr/include/bdd.h ] && cc -O2 -o "$folder/buddy" "$top/bench/diagrams.c" -lbdd; then
    buddy=$folder/buddy
else
    echo "BuDDy isn't installed: nothing stands beside"
fi

# The microseconds of user and system time of a round, from as many rounds as are asked for.
microseconds() {
    local program=$1 family=$2 size=$3 rounds=$4
    /usr/bin/time -f '%U %S' -o "$folder/time" "$program" "$family" "$size" "$rounds" >/dev/null
    awk -v rounds="$rounds" '{ printf "%d", ($1 + $2) * 1000000 / rounds }' "$folder/time"
}

# The peak memory of one round, in KiB; what it prints stays in the file `said`.
kibibytes() {
    /usr/bin/time -f %M -o "$folder/memory" "$1" "$2" "$3" 1 >"$folder/said"
    cat "$folder/memory"
}

nodes() { sed -n 's/^nodes //p' "$folder/said"; }
least() { sed -n 's/^least//p' "$folder/said"; }
ratio() { awk -v one="$1" -v other="$2" 'BEGIN { if (other > 0) printf "%.2f", one / other; else printf "-" }'; }

# measure FAMILY SIZE ROUNDS: its line
measure() {
    local family=$1 size=$2 rounds=$3 memory time line bits other_memory other_time
    memory=$(kibibytes "$ours" "$family" "$size")
    line="$family $size: $(nodes) nodes"
    bits=$(least)
    time=$(microseconds "$ours" "$family" "$size" "$rounds")
    line="$line, $time us, $memory KiB"
    if [ -n "$buddy" ]; then
        other_memory=$(kibibytes "$buddy" "$family" "$size")
        other_time=$(microseconds "$buddy" "$family" "$size" "$rounds")
        line="$line; BuDDy $(nodes) nodes, $other_time us, $other_memory KiB"
        line="$line; time x $(ratio "$time" "$other_time"), memory x $(ratio "$memory" "$other_memory")"
        [ "$bits" = "$(least)" ] || { echo "$family $size: BuDDy has other least bits" >&2; exit 1; }
    fi
    echo "$line"
}

for size in 8 16 32 64; do measure adder "$size" 1000; done
for size in 10 12 14 16 18; do measure weighted "$size" 200; done
for size in 4 5 6; do measure queens "$size" 200; done
for size in 7 8; do measure queens "$size" 20; done
(
    ulimit -s 256
    "$ours" chain 1000 1 >"$folder/said"
)
echo "chain of 100,000 variables on a stack of 256 KiB: $(nodes) nodes"
