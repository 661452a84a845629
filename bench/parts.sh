#!/usr/bin/env bash
# Prints the time of writing a part of 200,000 rows, half of them of lines and half of arcs, of 20,000 functions:
# `bench/parts.sh [ROWS [PARTS]]`.
set -euo pipefail
source "$(dirname "$0")/common.sh"
times bench
rows=${1:-200000}
parts=${2:-10}
scratch=$(mktemp -d)
trap 'rm -rf "$scratch"' EXIT
"$(dirname "$0")/files.py" functions 20000 "$scratch/file"

base=$(took parts "@$scratch/file" "$rows" 0)
spent=$(($(took parts "@$scratch/file" "$rows" "$parts") - base))
awk -v rows="$rows" -v parts="$parts" -v spent="$spent" \
    'BEGIN { printf "part of %d rows: %.0f ms\n", rows, spent / parts / 1e6 }'
each row "$spent" $((rows * parts)) row
