# What the benchmarks of layers share. `times CRATE WORD..` says which program is timed, and builds it, with words of a
# short run; `bench` takes its words as a line of its input.
source "$(dirname "${BASH_SOURCE[0]}")/build.sh"

times() {
    build "$@"
    program="$crates/$1/out/$1"
    [ "$1" != bench ] || program=bench
}

# the processor's nanoseconds of a command
spent() {
    local TIMEFORMAT=%U
    { time "$@" >/dev/null; } 2>&1 | awk '{ printf "%d\n", $1 * 1e9 }'
}

# those of a run of the program with these words
took() {
    spent "$program" "$@"
}

# NAME NANOSECONDS COUNT UNIT
each() {
    awk -v name="$1" -v spent="$2" -v count="$3" -v unit="$4" \
        'BEGIN { printf "%s: %.1f ns per %s\n", name, spent / count, unit }'
}
