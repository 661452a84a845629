#!/usr/bin/env bash
# build.sh: proves the libraries that the command stands on, several at a time, and builds crates/cgprof/out/cgprof. It
# takes the Rattle kit (rt on the path), and the first time some 50 minutes on four processors. It works on a copy of
# these crates in $CGPROF_BUILD (~/.cache/cgprof-build), where the proofs stay: a later call proves what has changed.
# build.sh CRATE does the same for one crate and what is below it.
set -euo pipefail
cd "$(dirname "$0")"
crate=${1:-cgprof}
copy=${CGPROF_BUILD:-${XDG_CACHE_HOME:-$HOME/.cache}/cgprof-build}
command -v rt >/dev/null || { echo "build.sh: the Rattle kit's rt is not on the path" >&2; exit 2; }

# The lines of crates.txt of the crate and of all below it
lines=$(awk -v wanted="$crate" '
    /^[a-z]/ { name = $1; sub(":", "", name); line[name] = $0; order[++count] = name }
    function need(name, words, i, n) {
        if (!(name in line) || needed[name]++) return
        n = split(line[name], words, " ")
        for (i = 2; i <= n; i++) need(words[i])
    }
    END { need(wanted); for (i = 1; i <= count; i++) if (needed[order[i]]) print line[order[i]] }' crates.txt)
[ -n "$lines" ] || { echo "build.sh: crates.txt has no crate $crate" >&2; exit 2; }
crates=$(sed 's/[: ].*//' <<<"$lines")
number=$(wc -l <<<"$lines")

# The copy: the sources anew, and what earlier calls have proved as it was
mkdir -p "$copy/crates"
cp HANDLES "$copy"
echo "$lines" >"$copy/crates.txt"
for old in "$copy"/crates/*/; do
    grep -qx "$(basename "$old")" <<<"$crates" || rm -rf "$old"
done
for name in $crates; do
    mkdir -p "$copy/crates/$name"
    find "$copy/crates/$name" -mindepth 1 -maxdepth 1 ! -name out -exec rm -rf {} +
    find "crates/$name" -mindepth 1 -maxdepth 1 ! -name out ! -name must-fail -exec cp -r {} "$copy/crates/$name" \;
done

# As many crates at a time as there are processors, with 4 GB of free memory for each
jobs=$(awk '/^MemAvailable:/ { print int($2 / 4e6) }' /proc/meminfo)
[ "$jobs" -le "$(nproc)" ] || jobs=$(nproc)
[ "$jobs" -ge 1 ] || jobs=1
echo "build.sh: $number crates, $jobs at a time, in $copy"
count=0
if ! (cd "$copy/crates" && rt all check --jobs "$jobs" 2>&1) | tee "$copy/log" | while read -r mark name _; do
    [ "$mark" != == ] || [ "$name" = summary ] || echo "$((++count)) of $number after $((SECONDS / 60)) min: $name"
done; then
    grep -E '^error|: failed|: not run' "$copy/log" | head -n 20
    echo "build.sh: not all is proved; $copy/log says why" >&2
    exit 1
fi

[ -f "crates/$crate/src/main.rt" ] || exit 0
echo "build.sh: all is proved; now the program is built, and tried by its demonstration"
program=$copy/crates/$crate/out/$crate
rm -f "$program"
(cd "$copy/crates/$crate" && rt run -- demo 1 2>>"$copy/log"; rm -f demo.out.*) || true
[ -x "$program" ] || { tail -n 20 "$copy/log"; echo "build.sh: it wasn't built" >&2; exit 1; }
mkdir -p "crates/$crate/out"
cp "$program" "crates/$crate/out"
echo "build.sh: crates/$crate/out/$crate, after $((SECONDS / 60)) min"
