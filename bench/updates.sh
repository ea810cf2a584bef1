#!/usr/bin/env bash
# Measures updates of the proved program: what they add to a run, by frame, and what a Step costs with and without one.
#
# Two series: `load N`, where four threads are in the middle of N functions each, and a recursion of so many frames.
# Each program is run alone; with a patch that is asked for too late, so that no update is made; and with the update. The
# difference of the last two is the cost of the update alone. Of RUNS runs of each (15) the fastest is taken.
#
#   bench/updates.sh            prints the table, and writes updates.dat
#   bench/updates.sh --plot     makes updates.png of updates.dat, by gnuplot (Debian's package gnuplot-nox)
set -u
cd "$(dirname "$0")" || exit 1
here=$(pwd)
upstare=${UPSTARE:-$here/../bin/upstare}
runs=${RUNS:-15}

if [ "${1:-}" = --plot ]; then exec gnuplot updates.gp; fi

work=$(mktemp -d) || exit 1
trap 'rm -rf "$work"' EXIT
cd "$work" || exit 1

# The time of one run of a command, in microseconds. What it put stands in the files `out` and `err`.
spent() {
    local began ended
    began=$(date +%s%N)
    "$@" >out 2>err </dev/null
    ended=$(date +%s%N)
    echo $(((ended - began) / 1000))
}

# The less of two numbers, of which the first may be missing.
less() { if [ -z "$1" ] || [ "$2" -lt "$1" ]; then echo "$2"; else echo "$1"; fi; }

# The Steps that a report tells.
steps_told() { sed -n 's/^end exit 0 steps \([0-9]*\) .*/\1/p' err; }

# One number over another, times a third, with one digit behind the point.
over() { awk "BEGIN { if ($2 > 0) printf \"%.1f\", $3 * $1 / $2; else printf \"-\" }"; }

# A recursion of so many frames, which then loops at its bottom: both programs, the mapping, and the Steps to its bottom.
recursion() {
    local depth=$(($1 - 2))
    cat >old.c <<END
int n;
int down(int k) { int r; if (k < 1) { while (n < 100) { n = n + 1; } return n; } r = down(k - 1); return r + 1; }
int main(void) { int r; r = down($depth); printf("%d\n", r); return 0; }
END
    sed 's/int r; if/int r; int w; if/' old.c >new.c
    cat >change.map <<END
point down entry -> entry;
point down loop 1 -> loop 1 { w = k; };
point down call 1 -> call 1 { w = k; };
END
    at=$((3 * depth + 10))
}

# The sources and the mapping of `load N`, as docs/COMMANDS.md has them: a source by its number, the word that it prints and what
# its functions declare more.
load() {
    local n=$1 word=$2 more=$3 k
    echo "int total; pthread_mutex_t m;"
    echo "int f1(int x) { int i;$more i = 0; while (i < 3) { i = i + 1; x = x + 1; } return x; }"
    for k in $(seq 2 "$n"); do
        echo "int f$k(int x) { int i;$more i = 0; while (i < 3) { i = i + 1; x = x + $k; } return f$((k - 1))(x); }"
    done
    echo "void *work(void *a) { int r; r = f$n(0); pthread_mutex_lock(&m); total = total + r; pthread_mutex_unlock(&m); return NULL; }"
    printf 'int main(void) { pthread_t a; pthread_t b; pthread_t c; pthread_t d;'
    for k in a b c d; do printf ' pthread_create(&%s, NULL, work, NULL);' "$k"; done
    for k in a b c d; do printf ' pthread_join(%s, NULL);' "$k"; done
    printf ' printf("%s total %%d\\n", total); return 0; }\n' "$word"
}

load_map() {
    local k
    for k in $(seq "$1"); do
        echo "point f$k entry -> entry; point f$k loop 1 -> loop 1 { z = i * $k; };"
        if [ "$k" -gt 1 ]; then echo "point f$k call 1 -> call 1 { z = i * $k; };"; fi
    done
    echo "point main entry -> entry;"
    for k in 1 2 3 4; do echo "point main block $k -> block $k;"; done
}

printf_row() { printf '%-10s %6s %7s %7s %8s %8s %8s %8s %8s %9s\n' "$@"; }

# Measures old.c, new.c and change.map, updated after so many Steps with about so many frames on the stacks.
measured() {
    local name=$1 size=$2 frames=$3 plain="" late="" updated="" steps
    "$upstare" patch old.c new.c change.map -o patch >out || exit 1
    # One after the other in each round, so that a busy machine slows all three.
    for _ in $(seq "$runs"); do
        plain=$(less "$plain" "$(spent "$upstare" run old.c)")
        late=$(less "$late" "$(spent "$upstare" run old.c --patch patch --at 10000000)")
        updated=$(less "$updated" "$(spent "$upstare" run old.c --patch patch --at "$at")")
    done
    grep -q 'update done$' err || { cat err; exit 1; }
    steps=$(steps_told)
    printf_row "$name" "$size" "$frames" "$steps" "$plain" "$late" "$updated" \
        "$(over "$plain" "$steps" 1000)" "$(over "$updated" "$steps" 1000)" "$(over "$((updated - late))" "$frames" 1000)"
}

table() {
    echo "# Microseconds of a run alone, with a patch that is asked for too late, and with its update; nanoseconds a Step of the first and"
    echo "# of the last, and a frame of the update alone. The frames of a load are about so many."
    printf_row '# series' size frames Steps alone late update ns/Step ns/Step+ ns/frame
    for n in 10 100 1000; do
        load "$n" old "" >old.c
        load "$n" new " int z;" >new.c
        load_map "$n" >change.map
        at=$((34 * n))
        measured load "$n" $((2 * n + 5))
    done
    for frames in 1000 10000; do
        recursion "$frames"
        measured recursion "$frames" "$frames"
    done
    for n in 10 100 1000; do
        whole=""
        for _ in $(seq "$runs"); do whole=$(less "$whole" "$(spent "$upstare" load "$n")"); done
        echo "# the command load $n: $whole us; $(head -n 1 out)"
    done
}

table | tee "$here/updates.dat"
