#!/usr/bin/env bash
# Runs one program by macro steps and the circuit that is built of it by clocks, over the same inputs, and compares
# their outputs. It prints steps and clocks per second, and how time and memory grow with ten times as many rows:
# about 10 where time grows linearly; memory grows with the rows, as both keep what they read and put. Then it runs a
# controller with inputs, vectors and preemptions, which can't be built yet, over its own rows again and again.
#
# It needs /usr/bin/time, and the program quartzc, which it proves and builds where it isn't built yet.
set -eu
top=$(cd "$(dirname "${BASH_SOURCE[0]}")/.." && pwd)
crate=$top/crates/quartzc
ours=$crate/out/quartzc
folder=$(mktemp -d)
trap 'rm -rf "$folder"' EXIT

[ -x "$ours" ] || (cd "$crate" && rt run) >"$folder/build.log" 2>&1 || true
[ -x "$ours" ] || { echo "quartzc was not built" >&2; tail "$folder/build.log" >&2; exit 1; }
cd "$folder"

# measured WORDS..: the call ends with status 0; sets `took` in microseconds and `held` in KiB
measured() {
    local begin end
    begin=$(date +%s%N)
    /usr/bin/time -f %M -o memory "$ours" "$@" || { echo "quartzc $*: status $?" >&2; exit 1; }
    end=$(date +%s%N)
    took=$(((end - begin) / 1000))
    held=$(cat memory)
}

ratio() { awk -v one="$1" -v other="$2" 'BEGIN { printf "%.1f", one / other }'; }

# measure MODE NAME FILE WHAT MAKE ROWS..: a line for each number of rows, which `MAKE ROWS` writes
measure() {
    local mode=$1 name=$2 file=$3 what=$4 make=$5 rows line took_before='' held_before=
    shift 5
    for rows in "$@"; do
        "$make" "$rows" >"$name.in"
        measured "$mode" "$name" "$file"
        cp "$name.out" "$name.$mode.$rows"
        line="$mode $name $rows: $(awk -v n="$rows" -v t="$took" 'BEGIN { printf "%d", n * 1000000 / t }') $what per second, $held KiB"
        [ -z "$took_before" ] || line="$line, time x $(ratio "$took" "$took_before"), memory x $(ratio "$held" "$held_before")"
        echo "$line"
        took_before=$took
        held_before=$held
    done
}

empty() { yes '' | head -n "$1"; }

# The rows of the controller, as often as is needed.
again() {
    local rows
    rows=$(wc -l <"$top/examples/Watchdog.in")
    for _ in $(seq $(($1 / rows + 1))); do cat "$top/examples/Watchdog.in"; done | head -n "$1"
}

cp "$top/examples/Phases.qz" "$top/examples/Watchdog.qz" .
"$ours" build Phases Phases.qz
measure run Phases Phases.qz steps empty 1000 10000 100000
measure sim Phases Phases.v clocks empty 1000 10000 100000
cmp Phases.run.100000 Phases.sim.100000 && echo "run and sim gave the same outputs"
measure run Watchdog Watchdog.qz steps again 1000 10000 100000
