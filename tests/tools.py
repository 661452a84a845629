#!/usr/bin/env python3
"""tests/tools.py: tries tools/show.py and tools/compare.py on reports that were written by hand, and the completion of
docs/cgprof.bash on words. What they have to print was worked out by hand."""

import os
import subprocess
import sys
import tempfile

TOP = os.path.dirname(os.path.dirname(os.path.abspath(__file__)))
HEAD = "command: a\nevents: Ir Dr\ntotals: {}\nsort: Ir threshold: 0\n\n-- functions\n"
OLD = (
    "what the guest wrote\n"
    + HEAD.format("1200 10")
    + """1200 10 | 500 4 | a.c:main [a]
700 6 | 700 6 | <cycle 1>
  - | 400 3 | a.c:f [a]
  - | 300 3 | a.c:a | b [a]

-- calls
a.c:main [a]
  > 2 | 700 6 | a.c:f [a]
a.c:f [a]
  > 15 | - | a.c:a | b [a]

-- source a.c
. | int f(void)
400 3 | { a | b; }
750 7 | <line 9>

-- no source b.c
"""
)
NEW = (
    HEAD.format("1000 10")
    + """1000 10 | 500 4 | a.c:main [new]
500 6 | 500 6 | a.c:f [new]

-- source a.c
. | /* more */
. | int f(void)
450 3 | { a | b; }
"""
)
SHOWN = """what the guest wrote
command: a
events: Ir Dr
totals: 1200 10
sort: Ir threshold: 0

-- functions
   Ir          own         function
1,200  100.0%  500  41.7%  a.c:main
  700   58.3%  700  58.3%  <cycle 1>
    -          400  33.3%    a.c:f
    -          300  25.0%    a.c:a | b

-- calls
calls   Ir
a.c:main
    2  700  > a.c:f
a.c:f
   15    -  > a.c:a | b

-- source a.c
line   Ir
   1       int f(void)
   2  400  { a | b; }
   3  750  <line 9>

-- no source b.c
"""
SHOWN_DR = """Dr          own         function
10  100.0%    4  40.0%  a.c:main
 6   60.0%    6  60.0%  <cycle 1>
 -            3  30.0%    a.c:f
 -            3  30.0%    a.c:a | b
"""
COMPARED = """event    old    new  change
Ir     1,200  1,000    -200  total
         300      -    -300  a.c:a | b
         400    500    +100  a.c:f
Dr        10     10      +0  total
           3      -      -3  a.c:a | b
           3      6      +3  a.c:f
"""
COMPARED_LINES = """event    old    new  change
Ir     1,200  1,000    -200  total
         750      -    -750  a.c:3  <line 9>
          50    550    +500  (lines that the reports don't show)
         400    450     +50  a.c:2->3  { a | b; }
"""
COMPLETE = """. "$0/docs/cgprof.bash"
compopt() { :; }
COMP_WORDS=(cgprof "$@") COMP_CWORD=$#
_cgprof
echo ${COMPREPLY[@]}"""
COMPLETED = [
    (["r"], "run report"),
    (["run", "--dump-b"], "--dump-before="),
    (["annotate", "--"], "--sort= --threshold= --tree= --auto="),
    (["report", "--tree", "=", "ca"], "caller calling"),
    (["report", "--tree", "="], "none caller calling both"),
    (["report", "--auto", "y"], "yes"),
    (["annotate", "--sort", "=", "D1"], "D1mr D1mw"),
    (["run", "--budget", "=", ""], ""),
    (["run", "--input", "=", "ol"], "old"),
    (["run", "ne"], "new"),
    (["demo", ""], ""),
]
tried = 0


def expect(words, out, error="", status=0):
    global tried
    done = subprocess.run(words, capture_output=True, text=True)
    if (done.returncode, done.stdout, done.stderr) != (status, out, error):
        sys.exit(f"{' '.join(words)}: {done.returncode}\n{done.stdout}{done.stderr}and not {status}\n{out}{error}")
    tried += 1


def main():
    show, compare = (os.path.join(TOP, "tools", name) for name in ("show.py", "compare.py"))
    with tempfile.TemporaryDirectory() as folder:
        os.chdir(folder)
        for name, text in (("old", OLD), ("new", NEW), ("none", "no report\n")):
            with open(name, "w", encoding="utf-8") as file:
                file.write(text)
        expect([show, "old"], SHOWN)
        expect([show, "--only=functions", "--events=Dr", "old"], SHOWN_DR)
        expect([show, "--events=Bc", "old"], "", "show.py: no event Bc among Ir Dr\n", 1)
        expect([show, "none"], "", "show.py: no report: it has no lines `command: ..` and `events: ..`\n", 1)
        expect([compare, "old", "new"], COMPARED)
        expect([compare, "--by=line", "--events=Ir", "old", "new"], COMPARED_LINES)
        first = "".join(COMPARED.splitlines(True)[:3])
        expect([compare, "--events=Ir", "--most=1", "old", "new"], first)
        for words, completions in COMPLETED:
            expect(["bash", "-c", COMPLETE, TOP, *words], completions + "\n")
    print(tried, "cases")


main()
