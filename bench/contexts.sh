#!/usr/bin/env bash
# Prints what a step costs in the built program `cgprof` where costs are told apart by callers, or by addresses:
# nanoseconds, and host instructions under callgrind. The guest calls two functions and returns from them in each sixteen
# steps, in one thread and in a hundred: without either, by contexts of up to 1, 3 and 16 callers, and by addresses, and
# what these take above the first. The host instructions, of the sort too, stand beside those that the recorder alone takes
# for a note: of a plain event, which most steps of the sort are, and where a quarter of the events calls or returns:
# `bench/contexts.sh [ROUNDS]`.
set -euo pipefail
here="$(cd "$(dirname "$0")" && pwd)"
source "$here/common.sh"
rounds=${1:-1000000}
build bench
layers="$crates/bench/out/bench"
times cgprof run data/p1
scratch=$(mktemp -d)
trap 'rm -rf "$scratch"' EXIT
cd "$scratch"

guest() {
    "$here/calling.py" "$1" "$2" "$3"
}

# the steps of the last run, by its parts
steps() {
    cat callgrind.out.* | awk '$1 == "totals:" { steps += $2 } END { print steps }'
}

# the host instructions of a command
counted() {
    valgrind --tool=callgrind --callgrind-out-file=counts "$@" >said 2>&1
    awk '$1 == "summary:" || $1 == "totals:" { print $2; exit }' counts
}

# the host instructions of a command, and what it counts
run() {
    rm -f callgrind.out.*
    echo "$(counted "$program" run "$@") $(steps)"
}

# NAME INSTRUCTIONS COUNT UNIT
all() {
    awk -v name="$1" -v all="$2" -v count="$3" -v unit="$4" \
        'BEGIN { printf "%s: %.0f host instructions per %s\n", name, all / count, unit }'
}

asked=(--separate-callers=1 --separate-callers=3 --separate-callers=16 --dump-instr=yes)
for threads in 1 100; do
    guest $((rounds / threads)) "$threads" guest
    bare=$(took run guest)
    count=$(steps)
    each "$threads threads" "$bare" "$count" step
    for option in "${asked[@]}"; do
        watched=$(took run "$option" guest)
        each "$threads threads, $option" "$watched" "$count" step
        each "$threads threads, $option, above that" $((watched - bare)) "$count" step
    done
done

command -v valgrind >/dev/null || { echo "host instructions: skipped, valgrind is missing" >&2; exit 0; }

# FORM: the host instructions of so many notes of the recorder
noted() {
    local command="notes @$scratch/functions $1 10 1 100000"
    echo $(($(counted "$layers" <<<"$command 1") - $(counted "$layers" <<<"$command 0")))
}

# NAME INSTRUCTIONS STEPS NOTE: the same beside what the recorder takes for a hundred thousand notes
in_notes() {
    awk -v name="$1" -v all="$2" -v count="$3" -v note="$4" 'BEGIN {
        printf "%s: %.0f host instructions per step, %.2f notes of the recorder\n", name, all / count, all / count / note * 1e5
    }'
}

# NAME NOTE FEW MANY: a step of a guest, from the difference of runs with these words, and what is above one without options
watched() {
    local few first many last bare option
    for option in --dump-instr=no "${asked[@]}"; do
        read -r few first < <(run "$option" $3)
        read -r many last < <(run "$option" $4)
        if [ "$option" = --dump-instr=no ]; then
            bare=$((many - few))
            all "$1" "$bare" $((last - first)) step
        else
            in_notes "$1, $option, above that" $((many - few - bare)) $((last - first)) "$2"
        fi
    done
}

"$here/files.py" functions 2 functions
plain=$(noted plain)
calls=$(noted calls)
all "the recorder's note, plain" "$plain" 100000 note
all "the recorder's note, calls" "$calls" 100000 note
guest 2000 1 few
guest 6000 1 many
watched "where a quarter calls or returns" $(((3 * plain + calls) / 4)) few many
command -v "$cross" >/dev/null || { echo "the sort: skipped, $cross is missing" >&2; exit 0; }
for_guest "$here/sort.c" sort
watched "the sort" "$plain" "sort 1" "sort 3"
