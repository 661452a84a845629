#!/usr/bin/env bash
# Prints what files and guests cost that are made to be slow or large: `bench/hostile.sh [KIND..]`. A file of each kind
# is read at about 1, 4, 16 and 64 MiB, a little less than the longest file that is taken: seconds of the processor
# without what an empty file takes, and peak memory, in seven rounds, in each of which the sizes take turns, since a
# machine's speed drifts: the median. Behind them stands how many times they are those of the size before, where these
# are 0.02 or more: the median of what it is in each round. "want" stands where the answer is want of memory, which is
# one too. A kind is left at the first size that takes a minute of the processor or 8 GB. Then come the guests, by
# hostile_guests.py.
#
# Time is to grow by at most 5.5 times, and no file is to take more than 20 seconds or 2 GB. The last lines name the
# kinds that miss one of these, and which: those that are known to be slow, and others, which are a fault (status 1).
#
# The environment may say other numbers of rounds (ROUNDS) and MiB (SIZES), and programs that are built already
# (READER, which is cases_programs, PROFILES, which is cases_reading, and CGPROF, which loads segments and lines).
set -euo pipefail
here="$(cd "$(dirname "$0")" && pwd)"
source "$here/build.sh"
files="symbols-data symbols-code symbols-one-place symbols-apart symbols-tails symbols-one-address symbols-one-letter
    symbols-fronts sections segments
    lines-paths lines-dropped lines-named lines-files lines-units lines-nested lines-rows rows-apart
    profile-ids profile-one-name profile-long-line profile-long-name profile-long-file profile-fronts
    profile-hash-names profile-hash-files profile-hash-objects report-long-file report-fronts"
known=" "
guests=()
asked=()
if [ $# = 0 ]; then
    asked=($files)
else
    for kind; do
        [[ " ${files//$'\n'/ } " == *" $kind "* ]] && asked+=("$kind") || guests+=("$kind")
    done
fi
[ -n "${READER:-}" ] || build cases_programs </dev/null
reader=$(realpath "${READER:-$crates/cases_programs/out/cases_programs}")
[ -n "${PROFILES:-}" ] || build cases_reading </dev/null
profiles=$(realpath "${PROFILES:-$crates/cases_reading/out/cases_reading}")
[ -n "${CGPROF:-}" ] || build cgprof run data/p1
cgprof=$(realpath "${CGPROF:-$crates/cgprof/out/cgprof}")
rounds=${ROUNDS:-7}
scratch=$(mktemp -d)
trap 'rm -rf "$scratch"' EXIT
cc -O2 -o "$scratch/make" "$here/hostile.c"
cc -O2 -o "$scratch/spent" "$here/spent.c"
cd "$scratch"
printf 'scene hostile\nfile 10000\n' >program
printf 'scene profiles\nread @file\ncounts\n' >profile

# FORM: the microseconds and kilobytes that the file takes, or a report on it; what is said of it goes to `said`
spent() {
    case $1 in
        profile) ./spent "$profiles" <profile 2>said ;;
        load) ./spent "$cgprof" run file </dev/null 2>said ;;
        report) ./spent "$cgprof" annotate --threshold=99 --auto=yes file 2>said ;;
        *) ./spent "$reader" <program 2>said ;;
    esac
}

: >file
read -r start _ < <(spent program)
slow_known="" slow_else=""

# KIND WHAT: the kind misses this
miss() {
    if [[ "$known" == *" $1 "* ]]; then slow_known+=" $1 ($2)"; else slow_else+=" $1 ($2)"; fi
}

# KIND: the form in which the reader is asked for a file of this kind
form() {
    case $1 in
        profile-*) echo profile ;;
        report-*) echo report ;;
        segments | lines-* | rows-*) echo load ;;
        *) echo program ;;
    esac
}

# KIND MEBIBYTES: measures the file of this size once more; fails where it takes too much
once_more() {
    ln -sf "file.$2" file
    if ! spent "$(form "$1")" >>"took.$2"; then
        grep -q 'out of memory' said || return 1
        touch "want.$2"
    fi
}

# the median of the rounds' lines, by their first word
median() { sort -n | sed -n "$((rounds / 2 + 1))p"; }

# KIND MEBIBYTES BEFORE: a line of what files of this size take, and what times that is of the size before, if there is
# one
told() {
    local answer="" took peak growth
    read -r took peak < <(median <"took.$2")
    if [ -n "$3" ] && (($(median <"took.$3" | cut -d ' ' -f 1) - start >= 20000)); then
        growth=$(paste -d ' ' "took.$3" "took.$2" | awk "{ print (\$3 - $start) / (\$1 - $start) }" | median)
        answer=$(awk "BEGIN { printf \", %.1f times\", $growth }")
        awk "BEGIN { exit $growth <= 5.5 }" && miss "$1" "$2 MiB${answer#,}"
    fi
    ((took - start <= 20000000)) || miss "$1" "$2 MiB $((took / 1000000)) s"
    ((peak <= 2000000)) || miss "$1" "$2 MiB $((peak / 1000)) MB"
    [ ! -e "want.$2" ] || answer+=", want"
    awk -v kind="$1" -v size="$2" -v took=$((took - start)) -v peak="$peak" -v answer="$answer" 'BEGIN {
        printf "%-20s %3d MiB: %6.3f s %6.0f MB%s\n", kind, size, took / 1e6, peak / 1000, answer
    }'
}

for kind in ${asked[@]+"${asked[@]}"}; do
    rm -f took.* want.*
    sizes=${SIZES:-1 4 16 64}
    for size in $sizes; do
        ./make "${kind/#report-/profile-}" $((size * 1048576 - 65536)) "file.$size"
    done
    for ((round = 0; round < rounds; round++)); do
        for size in $sizes; do
            once_more "$kind" "$size" && continue
            printf '%-20s %3d MiB: too much: %s\n' "$kind" "$size" "$(tail -n 1 said)"
            miss "$kind" "$size MiB too much"
            sizes=${sizes%%"$size"*}
            break
        done
    done
    before=""
    for size in $sizes; do
        told "$kind" "$size" "$before"
        before=$size
    done
done
status=0
if [ $# = 0 ] || [ ${#guests[@]} -gt 0 ]; then
    python3 "$here/hostile_guests.py" "$cgprof" ${guests[@]+"${guests[@]}"} || status=1
fi
echo "files known to be slow:${slow_known:- none}"
echo "files not known to be slow:${slow_else:- none}"
[ -z "$slow_else" ] || status=1
exit $status
