#!/usr/bin/env bash
# Runs the built program over real files and compares its answers: the controllers of this folder and the
# programs of the tutorial, run step by step; the programs of the first language, built and run for 20 clocks;
# and a call for each status that real files can bring about. It also sees that the tutorial shows its
# programs and their traces as they are in the files.
set -u
here=$(cd "$(dirname "${BASH_SOURCE[0]}")" && pwd)
program=$here/../crates/quartzc/out/quartzc
folder=$(mktemp -d)
trap 'rm -rf "$folder"' EXIT
cd "$folder" || exit 2
passed=0
failed=0

# expect STATUS LINE WORDS..: the call ends so and writes this line
expect() {
    local want_status=$1 want_line=$2 line status
    shift 2
    line=$("$program" "$@")
    status=$?
    if [ "$status" = "$want_status" ] && [ "$line" = "$want_line" ]; then
        passed=$((passed + 1))
    else
        failed=$((failed + 1))
        echo "failed: quartzc $*: status $status, line '$line'"
    fi
}

# holds WHAT COMMAND..: the command ends well, or WHAT is told
holds() {
    local what=$1
    shift
    if "$@"; then passed=$((passed + 1)); else failed=$((failed + 1)); echo "failed: $what"; fi
}

# same FILE OTHER: the files are equal
same() { holds "$1 differs" cmp -s "$1" "$2"; }

# absent FILE: no such file was put
absent() { holds "$1 was put" [ ! -e "$1" ]; }

# runs FOLDER: each program with inputs takes a step a row; it gives NAME.out, or it is refused by NAME.line
runs() {
    local source name
    mkdir steps
    for source in "$1"/*.qz; do
        name=$(basename "$source" .qz)
        [ -e "$1/$name.in" ] || continue
        cp "$source" "$1/$name.in" steps
        cd steps || exit 2
        if [ -e "$1/$name.line" ]; then
            expect 1 "$(cat "$1/$name.line")" run "$name" "$name.qz"
            absent "$name.out"
        else
            expect 0 '' run "$name" "$name.qz"
            same "$name.out" "$1/$name.out"
        fi
        cd .. || exit 2
    done
    rm -r steps
}

# copied FOLDER: what the gate runs over are copies of the folder's files
copied() {
    local source name data=$here/../crates/controllers/data
    for source in "$1"/*.in; do
        name=$(basename "$source" .in)
        same "$data/$name.qz" "$1/$name.qz"
        same "$data/$name.in" "$source"
        if [ -e "$1/$name.line" ]; then
            same "$data/$name.line" "$1/$name.line"
        else
            same "$data/$name.want" "$1/$name.out"
        fi
    done
}

# refused TEXT LINE: a source with this text is refused so
refused() {
    printf "$1" >t.qz
    expect 1 "t.qz: $2" run T t.qz
}

# What run says against a source and its inputs, and the statuses of files that can't be read or put.
refuses_runs() {
    mkdir refused
    cd refused || exit 2
    printf 'module V(mem bv[8] ?n, !m){ loop { m = n; pause; } }' >V.qz
    expect 1 'no.qz: absent' run V no.qz
    expect 1 'module U is missing' run U V.qz
    expect 1 'V.in: absent' run V V.qz
    printf '255\n256\n' >V.in
    expect 1 'V.in: line 2 out of range' run V V.qz
    printf '1\n2' >V.in
    expect 1 'V.in: line 2 unended' run V V.qz
    absent V.out
    : >V.in
    expect 0 '' run V V.qz
    same V.out V.in
    refused 'm\xff' 'not UTF-8 at byte 1'
    refused 'module T(event !o){ emit o; # }' 'no token at byte 28'
    refused 'module T(event !o){ emit; }' 'syntax at byte 24'
    refused 'module T(event ?i, !o){ emit i; }' 'write to an input at byte 29'
    refused 'module B(); module T(){ pause; B(); }' 'not built yet'
    expect 3 '' run V .
    rm V.out && mkdir V.out
    expect 4 '' run V V.qz
    cd .. || exit 2
}

# trace NAME: the rows of inputs and outputs as the tutorial shows them
trace() { paste -d '|' "$1.in" "$1.out" | sed 's/|/ | /; s/^ //'; }

# shows TEXT PART: the text has this part
shows() { [[ $1 == *"$2"* ]]; }

# shown FOLDER TEXT: the text has each program of the folder, with its trace or the line that refuses it
shown() {
    local source name
    for source in "$1"/*.qz; do
        name=${source%.qz}
        holds "$source isn't shown" shows "$2" "$(cat "$source")"
        if [ -e "$name.line" ]; then
            holds "$name.line isn't shown" shows "$2" "$(cat "$name.line")"
        else
            holds "the trace of $name isn't shown" shows "$2" "$(trace "$name")"
        fi
    done
}

usage='usage: quartzc MODE NAME FILE...'
shown "$here/tutorial" "$(cat "$here/../docs/LANGUAGE.md")"
copied "$here"
copied "$here/tutorial"
runs "$here"
runs "$here/tutorial"
refuses_runs
cp "$here"/*.qz .
for name in T Blink Phases; do
    expect 0 '' build "$name" "$name.qz"
    same "$name.v" "$here/$name.v"
    yes '' | head -n 20 >"$name.in"
    expect 0 '' sim "$name" "$name.v"
    same "$name.out" "$here/$name.steps"
done
expect 1 'T.v: module is T' sim Blink T.v
expect 1 'T.qz: bad Verilog at line 1' sim T T.qz
expect 1 'no.v: absent' sim T no.v
printf '\n0\n' >T.in
expect 1 'T.in: line 2 wrong count' sim T T.v
rm T.in
expect 1 'T.in: absent' sim T T.v
expect 1 'no.qz: absent' build T no.qz
expect 1 'T.qz: not built yet' build U T.qz
printf 'module T(event !o){ loop { emit o; } }' >loop.qz
expect 1 'loop 0 of T may end at once' build T loop.qz
printf 'module T(event ?a, !o){ emit o; }' >input.qz
expect 1 'input.qz: not built yet' build T input.qz
expect 2 "$usage" build T
expect 2 "$usage" build -x t.qz
expect 2 "$usage"
expect 2 "$usage" build T $'\xff'
expect 3 '' build T .
rm T.v && mkdir T.v
expect 4 '' build T T.qz
echo "$passed passed, $failed failed"
[ "$failed" = 0 ]
