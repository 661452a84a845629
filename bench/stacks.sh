#!/usr/bin/env bash
# Prints the nanoseconds of a call with its return, of a jump back at depth 10 and at depth 1,000,000 of a recursion, of one
# with the stack pointer of the call, of those in a recursion that takes no stack, and of a plain event, beside a plain
# vector of frames in Rust that follows the same events and has to come to the same number: `bench/stacks.sh [EVENTS]`.
set -euo pipefail
source "$(dirname "$0")/common.sh"
times bench
events=${1:-20000000}
scratch=$(mktemp -d)
trap 'rm -rf "$scratch"' EXIT
rustc -O -o "$scratch/plain" "$(dirname "$0")/stacks.rs"
"$(dirname "$0")/files.py" functions 2 "$scratch/file"

# NAME FORM BYTES DEPTH EVENTS COUNT UNIT
both() {
    local name=$1 events=$5 count=$6 unit=$7
    local said=("$2" "$3" "$4")
    local ours expected
    ours=$("$program" stacks "@$scratch/file" "${said[@]}" "$events")
    expected=$("$scratch/plain" "${said[@]}" "$events")
    [ "$ours" = "$expected" ] || { echo "$name: numbers differ: $ours, $expected" >&2; exit 1; }
    each "$name" $(($(took stacks "@$scratch/file" "${said[@]}" "$events") - $(took stacks "@$scratch/file" "${said[@]}" 0))) "$count" "$unit"
    each "$name, plain vector" \
        $(($(spent "$scratch/plain" "${said[@]}" "$events") - $(spent "$scratch/plain" "${said[@]}" 0))) "$count" "$unit"
}

both "calls" calls 16 10 "$events" $((events / 2)) "call and return"
for depth in 10 1000000; do
    both "jumps at depth $depth" jumps 16 "$depth" "$events" "$events" jump
    both "level jumps at depth $depth" level 16 "$depth" "$events" "$events" jump
done
for depth in 10 1000; do
    both "jumps over $depth equal stack pointers" jumps 0 "$depth" $((events / 100)) $((events / 100)) jump
done
both "plain" plain 16 10 "$events" "$events" event
