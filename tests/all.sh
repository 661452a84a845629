#!/usr/bin/env bash
# tests/all.sh CGPROF: tries the built command (crates/cgprof/out/cgprof) and what stands around it: the pages, the
# guests, devices that fail, memory that is refused, what is large (up to 4 GB), the scripts, the man page. It prints a
# line for each, and at the end `N passed, M failed`. It takes the packages of docs/GUIDE.md, a C compiler (cc) and man.
[ $# = 1 ] || { echo "tests/all.sh CGPROF" >&2; exit 2; }
program=$(realpath "$1")
[ -x "$program" ] || { echo "tests/all.sh: $1 is no program" >&2; exit 2; }
cd "$(dirname "$0")/.." || exit 2
passed=0 failed=0
said=$(mktemp)
trap 'rm -f "$said"' EXIT

# try NAME WORD..: does the words, whose status is the answer
try() {
    name=$1
    shift
    if "$@" >"$said" 2>&1; then
        passed=$((passed + 1))
        echo "passed  $name: $(tail -n 1 "$said")"
    else
        failed=$((failed + 1))
        echo "FAILED  $name"
        cat "$said"
    fi
}

# The man page renders without a warning.
page() {
    warnings=$(man --warnings -l docs/cgprof.1 2>&1 >/dev/null) || return
    echo "${warnings:-no warning}"
    [ -z "$warnings" ]
}

try "pages" python3 docs/guide.py "$program"
try "guests" python3 tests/guests.py "$program"
try "devices" python3 tests/devices.py "$program"
try "memory refused" python3 tests/refused.py "$program"
try "large" python3 tests/large.py "$program"
try "options, man page and completion" python3 tools/options.py
try "scripts" python3 tests/tools.py
try "man page" page
echo "$passed passed, $failed failed"
[ "$failed" = 0 ]
