#!/usr/bin/env python3
"""Draws profiles of at most 12 functions and lines below 12, what is known of their files, and a report of each: lines
of `stdin`."""
import os
import sys

sys.path.insert(0, os.path.join(os.path.dirname(os.path.abspath(__file__)), ".."))
from draws import Draws  # noqa: E402

# Files and names whose order isn't that of their cleaned forms.
FUNCTIONS = [("a.c", "f"), ("a!c", "g\\01"), ("a\\01c", "f"), ("a.c", "g!")]
FILES = ["a.c", "a!c", "a\\01c", "???", " b"]
OBJECTS = ["o", "/p\\7f"]
EVENTS = ["Ir", "Ir Dr", "Dw Ir Dr"]
THRESHOLDS = [0, 0, 1, 10, 25, 33, 50, 100]
TREES = ["none", "caller", "calling", "both"]
TEXTS = [
    [],
    ["source a.c one;\\09two\\01;;four", "long a!c 77", "source a\\01c"],
    ["source a.c ;", "source a!c 1;2;3;4;5;6;7;8;9;10;", "source \\20b \\ff \\0d;x;;"],
    ["long a\\01c 9", "source ??? a;b;", "long \\20b 0"],
]


def call(draws):
    lines = ["cob=" + draws.one_of(OBJECTS)] if draws.below(6) == 0 else []
    file, name = draws.one_of(FUNCTIONS)
    return lines + ["cfi=" + file, "cfn=" + name, f"calls={draws.below(3)} 1"]


def row(draws, events):
    lines = ["ob=" + draws.one_of(OBJECTS)] if draws.below(8) == 0 else []
    file, name = draws.one_of(FUNCTIONS)
    lines += ["fl=" + file, "fn=" + name]
    lines += ["fi=" + draws.one_of(FILES)] if draws.below(3) == 0 else []
    lines += call(draws) if draws.below(2) == 0 else []
    costs = [str(draws.below(12))]
    for _ in range(events):
        if draws.below(8) == 0:
            break
        costs.append(str(draws.below(5)))
    return lines + [" ".join(costs)]


def main():
    draws = Draws(29, 53)
    for _ in range(200):
        events = draws.below(len(EVENTS)) + 1
        lines = ["events: " + EVENTS[events - 1]]
        for _ in range(draws.below(16)):
            lines += row(draws, events)
        print("read " + ";".join(lines))
        for line in draws.one_of(TEXTS):
            print(line)
        sort, threshold, tree = draws.below(events), draws.one_of(THRESHOLDS), draws.one_of(TREES)
        print(f"report {sort} {threshold} {tree} {['yes', 'no'][draws.below(2)]}")


if __name__ == "__main__":
    main()
