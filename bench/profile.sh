#!/usr/bin/env bash
# Prints the time of reading a block of a profile, about 70 bytes: `bench/profile.sh [BLOCKS]`.
set -euo pipefail
source "$(dirname "$0")/common.sh"
times bench
blocks=${1:-700000}
scratch=$(mktemp -d)
trap 'rm -rf "$scratch"' EXIT
"$(dirname "$0")/files.py" blocks "$blocks" "$scratch/file"

each "profile" "$(took profile "@$scratch/file")" "$blocks" block
