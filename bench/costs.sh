#!/usr/bin/env bash
# Prints nanoseconds an addition of an event's cost, as a run makes it, to tables of 10, 1,000 and 100,000 places,
# without the cost of making the places, beside a plain hash map in Rust with the same additions, which has to count the
# same places: `bench/costs.sh [ADDITIONS]`.
set -euo pipefail
source "$(dirname "$0")/common.sh"
times bench
additions=${1:-20000000}
scratch=$(mktemp -d)
trap 'rm -rf "$scratch"' EXIT
rustc -O -o "$scratch/plain" "$(dirname "$0")/costs.rs"

for keys in 10 1000 100000; do
    ours=$("$program" costs tables "$keys" "$additions")
    plain=$("$scratch/plain" "$keys" "$additions")
    [ "$ours" = "$plain" ] || { echo "places differ: $ours, $plain" >&2; exit 1; }
    base=$(took costs places "$keys" "$additions")
    each "$keys places in tables" $(($(took costs tables "$keys" "$additions") - base)) "$additions" addition
    each "$keys places in a hash map" $(($(spent "$scratch/plain" "$keys" "$additions") - base)) "$additions" addition
done
