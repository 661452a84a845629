#!/usr/bin/env bash
# Prints the nanoseconds of a fetch, a load and a store of four bytes within a page, without the cost of choosing the
# address: `bench/memory.sh [ROUNDS]`.
set -euo pipefail
source "$(dirname "$0")/common.sh"
times bench
rounds=${1:-200000000}

base=$(took memory none "$rounds")
for call in fetch load32 store32; do
    each "$call" $(($(took memory "$call" "$rounds") - base)) "$rounds" call
done
