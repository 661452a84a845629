#!/usr/bin/env bash
# Prints the time of building a map of functions and lines, and nanoseconds a look-up of a place:
# `bench/places.sh [FUNCTIONS [ROUNDS]]`. A function has four instructions.
set -euo pipefail
source "$(dirname "$0")/common.sh"
times bench
functions=${1:-50000}
rounds=${2:-200}
scratch=$(mktemp -d)
trap 'rm -rf "$scratch"' EXIT
"$(dirname "$0")/files.py" functions "$functions" "$scratch/file"

base=$(took places "@$scratch/file" "$functions" 0)
each "map" "$base" "$functions" function
each "place" $(($(took places "@$scratch/file" "$functions" "$rounds") - base)) $((4 * functions * rounds)) "look-up"
