#!/usr/bin/env bash
# Runs ABRO, parts in parallel that wait, scopes in a side of an `if` that isn't taken, and chains of locals
# each of which takes the one before it in the same step. It prints steps per second, and how the time of a
# step grows from one size to the next, which is twice as large: about 2 where it grows linearly, as for the
# parts, about 1 for the scopes, at which a step doesn't come past, and about 4 for the chains, which need a
# round for each local. At the end it prints how long it takes until the first step of a chain.
#
# It needs the program crates/steps_bench, which it proves and builds where it isn't built yet.
set -eu
top=$(cd "$(dirname "${BASH_SOURCE[0]}")/.." && pwd)
crate=$top/crates/steps_bench
ours=$crate/out/steps_bench
folder=$(mktemp -d)
trap 'rm -rf "$folder"' EXIT

[ -x "$ours" ] || (cd "$crate" && rt run) >"$folder/build.log" 2>&1
[ -x "$ours" ] || { echo "steps_bench was not built" >&2; tail "$folder/build.log" >&2; exit 1; }

# The nanoseconds of a call.
nanoseconds() {
    local begin end
    begin=$(date +%s%N)
    "$ours" "$@" >"$folder/said"
    end=$(date +%s%N)
    echo $((end - begin))
}

ratio() { awk -v one="$1" -v other="$2" 'BEGIN { if (other > 0) printf "%.2f", one / other; else printf "-" }'; }

# measure TASK STEPS TRUE SIZE..: a line for each size. In so many steps the output has to be true.
measure() {
    local task=$1 steps=$2 true=$3 size all made one line before=
    shift 3
    for size in "$@"; do
        made=$(nanoseconds "$task" "$size" 0)
        all=$(nanoseconds "$task" "$size" "$steps")
        [ "$(cat "$folder/said")" = "$true" ] || { echo "$task $size: the output was wrong" >&2; exit 1; }
        one=$(((all - made) / steps))
        line="$task $size: $(awk -v one="$one" 'BEGIN { printf "%d", 1000000000 / (one + 1) }') steps per second"
        [ -z "$before" ] || line="$line, a step x $(ratio "$one" "$before")"
        echo "$line"
        before=$one
    done
}

# begins TASK SIZE..: how long it takes until the first step
begins() {
    local task=$1 size made before=
    shift
    for size in "$@"; do
        made=$(nanoseconds "$task" "$size" 0)
        line="$task $size begins after $((made / 1000)) us"
        [ -z "$before" ] || line="$line, x $(ratio "$made" "$before")"
        echo "$line"
        before=$made
    done
}

measure abro 1000000 250000 1
measure parallel 1000 0 1000 2000
measure aside 1000000 999999 1000 2000
measure chain 100 50 200 400
begins chain 1000 2000 4000
