#!/usr/bin/env bash
# Prints the time of reading a unit of a compiler's line table, 147 bytes: `bench/lines.sh [UNITS]`.
set -euo pipefail
source "$(dirname "$0")/common.sh"
times bench
units=${1:-20000}

each "lines" "$(took lines "$units")" "$units" unit
