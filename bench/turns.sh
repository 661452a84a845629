#!/usr/bin/env bash
# Prints the nanoseconds of a step of arithmetic: of the instruction alone, of a machine with one thread, and of one with
# a thousand ready threads whose turns have one step each, with the ratios to the first: `bench/turns.sh [STEPS]`.
set -euo pipefail
source "$(dirname "$0")/common.sh"
times bench
steps=${1:-100000000}

alone=$(took steps arithmetic "$steps")

beside() {
    awk -v name="$1" -v spent="$2" -v alone="$alone" -v steps="$steps" \
        'BEGIN { printf "%-40s %6.1f ns %6.2f\n", name, spent / steps, spent / alone }'
}

beside "instruction alone" "$alone"
beside "one thread" "$(took turns 1 10000 0 "$steps")"
beside "1,000 threads, turns of one step" "$(took turns 1000 1 0 "$steps")"
beside "1,000 threads, turns of a seed up to 100" "$(took turns 1000 100 7 "$steps")"
