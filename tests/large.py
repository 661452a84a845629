#!/usr/bin/env python3
"""tests/large.py CGPROF [NAME..]: runs the built program CGPROF at its limits and one beyond, and on guests and files
that are large in one thing: contexts, threads, open calls, functions, code, rows, lines. What must come out is reckoned
here, from the rules of the formats, and never by the program. Each case says how much memory it may take, 4 GB at the
most; one that takes more than the machine has is skipped, and said so. With names, those cases alone."""

import os
import sys

import large_files
import large_guests
import large_limits
from large_runs import CASES, GIGABYTE, Command


def main():
    program, *names = sys.argv[1:]
    machine = os.sysconf("SC_PHYS_PAGES") * os.sysconf("SC_PAGE_SIZE")
    done = runs = 0
    skipped = []
    for function, most in CASES:
        name = function.__name__
        if names and name not in names:
            continue
        if most > machine:
            skipped.append(name)
            print(f"{name}: skipped, takes {most / GIGABYTE:.0f} GB", flush=True)
            continue
        command = Command(os.path.realpath(program), most)
        with command.scratch:
            said = function(command)
        print(f"{name}: {said}; {command.peak / GIGABYTE:.2f} GB", flush=True)
        done, runs = done + 1, runs + command.runs
    print(f"{done} cases, {runs} commands" + (f", skipped: {', '.join(skipped)}" if skipped else ""))


main()
