#!/usr/bin/env bash
# Builds texts of 12,500 to 100,000 units in two shapes, checks that each text is put, and prints how time
# and peak memory grow from one size to the next, which is twice as large: about 2 where they grow linearly.
# It needs the program to be built (`quartzc` at the top does that) and /usr/bin/time.
set -eu
top=$(cd "$(dirname "${BASH_SOURCE[0]}")/.." && pwd)
program=$top/crates/quartzc/out/quartzc
folder=$(mktemp -d)
trap 'rm -rf "$folder"' EXIT
cd "$folder"

# A loop round pairs of `emit o; pause;`. The loop, its condition and its list take 7 units, a pair 9.
flat() {
    local pairs=$((($1 - 7) / 9))
    printf 'module T(event !o){ loop {'
    for ((i = 0; i < pairs; i++)); do printf ' emit o; pause;'; done
    printf ' } }\n'
}

# The pairs in the last of 120 blocks, each with `nothing;` in the one before it. A block takes 4 units, a
# pair 6.
nested() {
    local pairs=$((($1 - 500) / 6))
    printf 'module T(event !o){'
    for ((i = 0; i < 120; i++)); do printf ' nothing; {'; done
    for ((i = 0; i < pairs; i++)); do printf ' emit o; pause;'; done
    for ((i = 0; i < 120; i++)); do printf ' }'; done
    printf ' }\n'
}

# The microseconds of a build, from ten of them.
microseconds() {
    local begin end
    begin=$(date +%s%N)
    for _ in 1 2 3 4 5 6 7 8 9 10; do "$program" build T t.qz; done
    end=$(date +%s%N)
    echo $(((end - begin) / 10000))
}

ratio() { echo "$(($1 * 100 / $2))" | sed 's/\(..\)$/.\1/'; }

# measure SHAPE: its line for each size
measure() {
    local units memory time line time_before= memory_before=
    for units in 12500 25000 50000 100000; do
        "$1" "$units" >t.qz
        rm -f T.v
        memory=$(/usr/bin/time -f %M "$program" build T t.qz 2>&1)
        [ -s T.v ] || { echo "no text was put for $units units, $1" >&2; exit 1; }
        time=$(microseconds)
        line="$1, $units units: $time us, $memory KiB"
        if [ -n "$time_before" ]; then
            line="$line, time x $(ratio "$time" "$time_before"), memory x $(ratio "$memory" "$memory_before")"
        fi
        echo "$line"
        time_before=$time
        memory_before=$memory
    done
}

measure flat
measure nested
