#!/usr/bin/env bash
# Prints nanoseconds a reference for the default caches, and nanoseconds an event for the predictors of branches, beside
# a plain cache and plain predictors in C with the same references and branches, which have to count the same misses.
set -eu
source "$(dirname "$0")/common.sh"
times bench
references=${1:-50000000}
scratch=$(mktemp -d)
trap 'rm -rf "$scratch"' EXIT
cc -O2 -o "$scratch/plain" "$(dirname "$0")/cache.c"

# the processor's nanoseconds a reference of one run, and its count of misses
timed() {
    local TIMEFORMAT=%U
    { time "$@" >"$scratch/misses"; } 2>"$scratch/seconds"
    awk -v references="$references" '{ printf "%.2f ", $1 * 1e9 / references }' "$scratch/seconds"
    cat "$scratch/misses"
}

# the times of both programs, which have to print the same count
both() {
    local name=$1 pattern=$2 ours plain misses expected
    read -r ours misses < <(timed "$program" "${@:3:1}" "${@:4}")
    read -r plain expected < <(timed "$scratch/plain" "${@:4}")
    [ "$misses" = "$expected" ] || { echo "misses differ: $misses, $expected" >&2; exit 1; }
    awk -v name="$name" -v pattern="$pattern" -v ours="$ours" -v plain="$plain" \
        'BEGIN { printf "%-18s %-11s %10s %10s %6.2f\n", name, pattern, ours, plain, ours / plain }'
}

printf '%-18s %-11s %10s %10s %6s\n' cache pattern rattle c ratio
for shape in "32768 8 64" "8388608 16 64"; do
    for pattern in sequential random straddling; do
        both "$shape" "$pattern" cache $shape "$pattern" "$references"
    done
done
for kind in conditional indirect; do
    both predictors "$kind" branches "$kind" "$references"
done
