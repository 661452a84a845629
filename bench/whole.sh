#!/usr/bin/env bash
# Prints how fast whole runs of the built program `cgprof` are, with symbols, lines, the call graph and the default caches:
# `bench/whole.sh [ROUNDS]`. First, once: host instructions a step, from the difference of two short runs under callgrind.
# Then in each round, one after another:
#
#   - a sort in C, its steps a second, beside the instructions a second that callgrind counts with its caches on the same
#     program built for this machine, and the ratio of both;
#   - a program of calls with one thread, with four in turns of 10,000 steps and of one step, and with branches;
#   - a program with much code, as the sort;
#   - the demo of 10,000, with its peak memory;
#   - the start of a program of 1 MB with lines, in milliseconds.
#
# What takes a program that isn't there (the cross compiler, valgrind) is skipped, and said so.
set -euo pipefail
rounds=${1:-3}
sorts=500
dispatched=500000
calls=2000000
here="$(cd "$(dirname "$0")" && pwd)"
source "$here/build.sh"
build cgprof run data/p1
cgprof="$crates/cgprof/out/cgprof"
scratch=$(mktemp -d)
trap 'rm -rf "$scratch"' EXIT
cd "$scratch"
"$here/calling.py" "$calls" 1 one
"$here/calling.py" $((calls / 4)) 4 four

skip() {
    echo "$1: skipped, $2" >&2
}

has() {
    command -v "$1" >/dev/null
}

# a program of 4,300 functions, 1 MB with its lines
many_functions() {
    awk 'BEGIN {
        for (i = 0; i < 4300; i++)
            printf "__attribute__((noinline)) int function_%d(int x) {\n    x = x * %d + 1;\n    return x ^ %d;\n}\n", i, i, i
        print "__asm__(\".globl _start\\n_start: li a0, 0\\n li a7, 93\\n ecall\\n\");"
    }'
}

# seconds of the processor, seconds by the clock and kilobytes at the peak of a command
spent() {
    /usr/bin/time -f '%U %S %e %M' -o times "$@" >said 2>&1
    awk '{ print $1 + $2, $3, $4 }' times
}

# the same of a run that begins anew, and behind them its steps
run() {
    rm -f callgrind.out.*
    spent "$cgprof" run --budget=1000000000000 "$@"
    cat callgrind.out.* | awk '$1 == "totals:" { steps += $2 } END { print steps }'
}

# NAME WORD..: a line of a run's speed
speed() {
    local name=$1
    shift
    run "$@" | awk -v name="$name" 'NR == 1 { time = $1; memory = $3 } NR == 2 {
        printf "%s: %.1f million steps a second, %.0f MB\n", name, $1 / time / 1e6, memory / 1000
    }'
}

# the instructions that callgrind counts of a command
counted() {
    valgrind --tool=callgrind --callgrind-out-file=counts "$@" >said 2>&1
    awk '$1 == "summary:" || $1 == "totals:" { print $2; exit }' counts
}

# NAME PROGRAM FEW MANY: host instructions a step, from the difference of runs with these words
instructions() {
    local name=$1 program=$2 steps host
    steps=$(($(run "$program" "$4" | tail -n 1) - $(run "$program" "$3" | tail -n 1)))
    host=$(($(counted "$cgprof" run "$program" "$4") - $(counted "$cgprof" run "$program" "$3")))
    awk -v name="$name" -v host="$host" -v steps="$steps" \
        'BEGIN { printf "%s: %.0f host instructions a step\n", name, host / steps }'
}

# NAME PROGRAM WORD: a program, beside callgrind on its twin
beside() {
    local name=$1 program=$2 steps time native
    { read -r time _ _; read -r steps; } < <(run "$program" "$3")
    read -r native _ _ < <(spent valgrind --tool=callgrind --cache-sim=yes --callgrind-out-file=counts "./twin_$program" "$3")
    awk -v name="$name" -v steps="$steps" -v time="$time" -v native="$native" '$1 == "summary:" || $1 == "totals:" {
        printf "%s: %.1f million steps a second, callgrind %.1f million, ratio %.2f\n",
            name, steps / time / 1e6, $2 / native / 1e6, steps / time / ($2 / native)
        exit
    }' counts
}

has "$cross" && for_guest "$here/sort.c" sort || skip "sort" "no $cross"
if [ -e sort ]; then
    many_functions >many.c && for_guest many.c many
    "$here/much.py" >much.c && for_guest much.c much
    cc -O2 -g -o twin_much much.c
fi
cc -O2 -g -o twin_sort "$here/sort.c"
if [ -e sort ] && has valgrind; then
    instructions sort sort 2 6
    instructions "much code" much 20000 60000
else
    skip "host instructions" "no $cross or no valgrind"
fi

for ((round = 1; round <= rounds; round++)); do
    echo "round $round"
    if [ ! -e sort ]; then
        :
    elif has valgrind; then
        beside sort sort "$sorts"
        beside "much code" much "$dispatched"
    else
        skip "callgrind" "no valgrind"
        speed sort sort "$sorts"
        speed "much code" much "$dispatched"
    fi
    speed "calls, one thread" one
    speed "calls, four threads" four
    speed "calls, four threads, turns of one step" --quantum=1 four
    speed "calls, one thread, with branches" --branch-sim=yes one
    if "$cgprof" demo 1 >said 2>&1; then
        rm -f demo.out.*
        spent "$cgprof" demo 10000 | cat - said | awk 'NR == 1 { time = $1; memory = $3 } $1 == "steps" {
            printf "demo: %.1f million steps a second, %.0f MB\n", $2 / time / 1e6, memory / 1000
        }'
    else
        skip "demo" "the command isn't there"
    fi
    if [ -e many ]; then
        run many | awk -v size="$(stat -c %s many)" \
            'NR == 1 { printf "start of a program of %.1f MB: %.0f ms\n", size / 1e6, $2 * 1000 }'
    fi
done
