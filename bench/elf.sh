#!/usr/bin/env bash
# Prints the time of reading a file of 60,000 segments, in no order of addresses, of which no two share an address, or the
# last shares one with the first, by turns: `bench/elf.sh [FILES]`.
set -euo pipefail
source "$(dirname "$0")/common.sh"
times bench
files=${1:-20}
scratch=$(mktemp -d)
trap 'rm -rf "$scratch"' EXIT
for kind in segments overlap; do
    "$(dirname "$0")/files.py" "$kind" 60000 4096 4096 7919 "$scratch/$kind"
done

each "elf" $(($(took elf "@$scratch/segments" $((files / 2))) + $(took elf "@$scratch/overlap" $((files / 2))))) "$files" file
