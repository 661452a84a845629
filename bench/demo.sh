#!/usr/bin/env bash
# Prints the steps a second and the peak memory of the built command `cgprof demo`, beside the instructions a second
# that callgrind counts with its caches on a twin in C, whose four threads make as many calls: `bench/demo.sh [SIZE]`.
# Both are built before they are timed.
set -euo pipefail
size=${1:-10000}
here="$(cd "$(dirname "$0")" && pwd)"
source "$here/build.sh"
build cgprof run data/p1
cgprof="$crates/cgprof/out/cgprof"
scratch=$(mktemp -d)
trap 'rm -rf "$scratch"' EXIT
cc -O2 -g -pthread -o "$scratch/twin" "$here/demo.c"
cd "$scratch"

# seconds of the processor and kilobytes at the peak of a command
spent() {
    /usr/bin/time -f '%U %S %M' -o times "$@" >said 2>&1
    awk '{ print $1 + $2, $3 }' times
}

read -r time memory < <(spent "$cgprof" demo "$size")
cat said
steps=$(awk '$1 == "steps" { print $2 }' said)
awk -v steps="$steps" -v time="$time" -v memory="$memory" \
    'BEGIN { printf "cgprof: %.1f million steps a second, %.0f MB\n", steps / time / 1e6, memory / 1000 }'
if ! command -v valgrind >/dev/null; then
    echo "the twin: skipped, no valgrind" >&2
    exit
fi
read -r native _ < <(spent valgrind --tool=callgrind --cache-sim=yes --callgrind-out-file=counts ./twin "$size")
awk -v steps="$steps" -v time="$time" -v native="$native" '$1 == "summary:" || $1 == "totals:" {
    printf "callgrind: %.1f million instructions a second, ratio %.2f\n",
        $2 / native / 1e6, steps / time / ($2 / native)
    exit
}' counts
