#!/usr/bin/env bash
# Prints the nanoseconds of a note: of a plain event, of which two lines take turns, and of a call or its return, in a
# recursion of depth 10 and of depth 100,000 and in 1,000 threads that take turns, without the cost of looking whether
# they can be noted, beside a plain Rust program that does the same with hash maps and has to come to the same number:
# `bench/notes.sh [EVENTS]`.
set -euo pipefail
source "$(dirname "$0")/common.sh"
times bench
events=${1:-10000000}
scratch=$(mktemp -d)
trap 'rm -rf "$scratch"' EXIT
rustc -O -o "$scratch/plain" "$(dirname "$0")/notes.rs"
"$(dirname "$0")/files.py" functions 2 "$scratch/file"

# NAME FORM DEPTH THREADS
both() {
    local name=$1 said=("$2" "$3" "$4" "$events")
    local ours expected
    ours=$("$program" notes "@$scratch/file" "${said[@]}" 1)
    expected=$("$scratch/plain" "${said[@]}" 1)
    [ "$ours" = "$expected" ] || { echo "$name: numbers differ: $ours, $expected" >&2; exit 1; }
    each "$name" $(($(took notes "@$scratch/file" "${said[@]}" 1) - $(took notes "@$scratch/file" "${said[@]}" 0))) "$events" note
    each "$name, hash maps" \
        $(($(spent "$scratch/plain" "${said[@]}" 1) - $(spent "$scratch/plain" "${said[@]}" 0))) "$events" note
}

for form in plain calls; do
    both "$form, depth 10" "$form" 10 1
    both "$form, depth 100,000" "$form" 100000 1
    both "$form, 1,000 threads" "$form" 10 1000
done
