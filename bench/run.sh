#!/usr/bin/env bash
# Measures the proved program on a few C programs, and the same programs by a C compiler and others, where they are there.
#
# Each program does its work REPEAT times. Two numbers of times are run, and their difference is told, so that neither the
# start of the process nor the reading of the source counts. Of five runs of each the fastest is taken.
set -u
cd "$(dirname "$0")" || exit 1
here=$(pwd)
upstare=${UPSTARE:-$here/../bin/upstare}
work=$(mktemp -d) || exit 1
trap 'rm -rf "$work"' EXIT
runs=5

# The fastest of some runs of a command, in nanoseconds.
fastest() {
    local best="" began ended spent
    for _ in $(seq "$runs"); do
        began=$(date +%s%N)
        "$@" >"$work/out" 2>"$work/err" </dev/null
        ended=$(date +%s%N)
        spent=$((ended - began))
        if [ -z "$best" ] || [ "$spent" -lt "$best" ]; then best=$spent; fi
    done
    echo "$best"
}

# The time of one repetition, from runs of so many and of twice as many: a command that takes the number of times.
once() {
    local times=$1 one two
    shift
    "$@" "$times" prepare
    one=$(fastest "$@" "$times" run)
    "$@" $((2 * times)) prepare
    two=$(fastest "$@" $((2 * times)) run)
    echo $(((two - one) / times))
}

of_size() { sed "s/^#define REPEAT .*/#define REPEAT $2/" "$1.c" >"$work/$1.$2.c"; }

by_upstare() {
    if [ "$3" = prepare ]; then of_size "$1" "$2"; else "$upstare" run "$work/$1.$2.c" --steps 10000000; fi
}

by_compiler() {
    local compiler=$1
    shift
    if [ "$3" = prepare ]; then
        of_size "$1" "$2"
        if [ "$compiler" = gcc ]; then
            gcc -O0 -std=gnu11 -fwrapv -pthread -o "$work/$1.$2" "$work/$1.$2.c"
        else
            tcc -pthread -o "$work/$1.$2" "$work/$1.$2.c"
        fi
    else
        "$work/$1.$2"
    fi
}

by_lua() {
    if [ "$3" = prepare ]; then
        { echo "REPEAT = $2"; cat "$1.lua"; } >"$work/$1.$2.lua"
    else
        lua5.4 "$work/$1.$2.lua"
    fi
}

# The Steps of a run, as its report tells them.
steps_of() {
    of_size "$1" "$2"
    "$upstare" run "$work/$1.$2.c" --steps 10000000 2>&1 >/dev/null | sed -n 's/^end exit 0 steps \([0-9]*\) .*/\1/p'
}

# One number over another, with one digit behind the point; `-` where one is missing.
over() {
    if [ -z "$1" ] || [ -z "$2" ] || [ "$2" -le 0 ]; then echo "-"; else awk "BEGIN { printf \"%.1f\", $1 / $2 }"; fi
}

where_there() {
    if command -v "$1" >/dev/null 2>&1; then "${@:2}"; fi
}

printf '%-10s %10s %10s %10s %10s %10s\n' program Steps ns/Step "/gcc -O0" /tcc /lua5.4
for program in loop recursion sort list queue; do
    steps=$(($(steps_of "$program" 2) - $(steps_of "$program" 1)))
    ours=$(once 1 by_upstare "$program")
    gcc=$(where_there gcc once 40 by_compiler gcc "$program")
    tcc=$(where_there tcc once 40 by_compiler tcc "$program")
    lua=""
    if [ -f "$program.lua" ]; then lua=$(where_there lua5.4 once 10 by_lua "$program"); fi
    printf '%-10s %10s %10s %10s %10s %10s\n' "$program" "$steps" "$(over "$ours" "$steps")" \
        "$(over "$ours" "$gcc")" "$(over "$ours" "$tcc")" "$(over "$ours" "$lua")"
done
