#!/usr/bin/env bash
# Prints the time of loading a program with 248 MiB of zeros, and one with 60,000 segments: `bench/load.sh [ROUNDS]`.
set -euo pipefail
source "$(dirname "$0")/common.sh"
times bench
rounds=${1:-10}
scratch=$(mktemp -d)
trap 'rm -rf "$scratch"' EXIT
"$(dirname "$0")/files.py" segments 1 $((0xf800000)) 0 1 "$scratch/zeros"
# each after a gap as long as the one before it
"$(dirname "$0")/files.py" segments 60000 $((0x30)) $((0x60)) 1 "$scratch/segments"

for form in zeros segments; do
    each "load $form" "$(took load "@$scratch/$form" "$rounds")" "$rounds" program
done
