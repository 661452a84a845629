#!/usr/bin/env bash
# Prints the nanoseconds that each form of the decoder takes for a word, without the cost of making the words:
# `bench/decode.sh [WORDS]`.
set -euo pipefail
source "$(dirname "$0")/common.sh"
times bench
words=${1:-50000000}

base=$(took decode words "$words")
for form in fields search; do
    each "decode by $form" $(($(took decode "$form" "$words") - base)) "$words" word
done
