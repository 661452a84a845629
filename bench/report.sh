#!/usr/bin/env bash
# Prints the seconds of a report on a profile of 100,000 functions, on one of a million rows, and over a source text of a
# million lines, without those of reading the profile: `bench/report.sh`.
set -euo pipefail
source "$(dirname "$0")/common.sh"
times bench
scratch=$(mktemp -d)
trap 'rm -rf "$scratch"' EXIT

# NAME FUNCTIONS BLOCKS LINES: a block is two rows
report() {
    local base whole
    "$(dirname "$0")/files.py" rows "${@:2}" "$scratch/file"
    base=$(took report "@$scratch/file" read "$4")
    whole=$(took report "@$scratch/file" whole "$4")
    awk -v name="$1" -v spent=$((whole - base)) 'BEGIN { printf "%s: %.2f s\n", name, spent / 1e9 }'
}

report "100,000 functions" 100000 100000 1
report "1,000,000 rows of 1,000 functions" 1000 500000 1000
report "1,000,000 lines" 1 1000 1000000
report "1,000,000 lines with rows" 1 1000000 1000000
