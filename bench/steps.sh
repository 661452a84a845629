#!/usr/bin/env bash
# Prints the nanoseconds of a step in each loop of instructions: `bench/steps.sh [STEPS]`.
set -euo pipefail
source "$(dirname "$0")/common.sh"
times bench
steps=${1:-100000000}

for loop in arithmetic memory calls; do
    each "$loop" "$(took steps "$loop" "$steps")" "$steps" step
done
