#!/usr/bin/env bash
# tests/wrong_bodies.sh CRATE..: tries the wrong bodies of these crates that the gate leaves out for time, those of
# crates/CRATE/wrong-bodies, on a copy of what is committed: the prover has to refuse each. It takes 10 to 90 seconds of
# a processor for each, and a check of the crate before.
set -euo pipefail
[ $# -gt 0 ] || { echo "tests/wrong_bodies.sh CRATE.." >&2; exit 2; }
top="$(cd "$(dirname "$0")/.." && pwd)"
scratch=$(mktemp -d)
trap 'rm -rf "$scratch"' EXIT
git clone -q "$top" "$scratch/tree"
cd "$scratch/tree"
for crate; do
    mkdir -p "crates/$crate/must-fail"
    mv "crates/$crate/wrong-bodies/"*.edit "crates/$crate/must-fail/"
done
rt must-fail "$@"
