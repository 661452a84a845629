#!/usr/bin/env bash
# Prints the steps a second of the built program `cgprof` on a loop of 10^8 instructions, three in ten of which refer to
# memory, with the default caches, beside a plain interpreter in C, which has to count the same: `bench/run.sh [ROUNDS]`.
# A round has ten instructions. Both programs are built before they are timed.
set -eu
rounds=${1:-10000000}
here="$(cd "$(dirname "$0")" && pwd)"
source "$here/build.sh"
build cgprof run data/p1
cgprof="$crates/cgprof/out/cgprof"
scratch=$(mktemp -d)
trap 'rm -rf "$scratch"' EXIT
"$here/files.py" loop "$rounds" "$scratch/loop"
cc -O2 -o "$scratch/plain" "$here/interpreter.c"

# the processor's seconds of a command
seconds() {
    local TIMEFORMAT=%U
    { time "$@" >"$scratch/said"; } 2>&1
}

cd "$scratch"
plain=$(seconds ./plain loop)
expected=$(cat said)
ours=$(seconds "$cgprof" run loop)
counted=$(tail -n 1 callgrind.out.1-1)
[ "$counted" = "$expected" ] || { echo "counts differ: $counted, $expected" >&2; exit 1; }
echo "$counted"
awk -v ours="$ours" -v plain="$plain" -v steps="$((10 * rounds + 6))" 'BEGIN {
    printf "cgprof: %.1f million steps a second\n", steps / ours / 1e6
    printf "plain interpreter in C: %.1f million, ratio %.2f\n", steps / plain / 1e6, ours / plain
}'
