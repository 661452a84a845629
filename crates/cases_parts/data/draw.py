#!/usr/bin/env python3
"""Draws 200 parts of the program `drawn`: `draw.py in` prints their lines `write`, and `draw.py out` what `cases_reading`
reads them as: function by function, and the rows of each in the order in which they were given."""
import os
import sys

HERE = os.path.dirname(os.path.abspath(__file__))
sys.path[:0] = [HERE, os.path.join(HERE, "../../cases_reading/data")]
sys.dont_write_bytecode = True
from draws import Draws  # noqa: E402
from programs import PROGRAMS  # noqa: E402

NINE = "Ir Dr Dw I1mr D1mr D1mw ILmr DLmr DLmw"
THIRTEEN = NINE + " Bc Bcm Bi Bim"
COSTS = [[0], [1], [0, 0, 7, 10], [2**64 - 1, 0, 0, 0, 0, 0, 0, 0, 1_000_000], list(range(1, 14))]
_, _, FUNCTIONS, NAMES, LINES = PROGRAMS["drawn"]
END = LINES[-1]


def place(address):
    """The file and the line of an address."""
    below = [row for row in LINES[:-1] if row[0] <= address]
    return (NAMES[below[-1][1]], below[-1][2]) if address < END else ("???", 0)


def function(address):
    """The file and the name of an address's function; the file is that of its first instruction."""
    for name, first, size in FUNCTIONS:
        if first <= address < first + size:
            return place(first)[0], name
    return "???", "???"


def numbers(cost, branches):
    cost = cost + [0] * (13 - len(cost))
    return " ".join(map(str, cost[: 13 if branches else 9]))


def draw_part(draws):
    address = lambda: 0x10000 + draws.below(17) * 4
    lines = [(address(), draws.one_of(COSTS)) for _ in range(draws.below(12))]
    calls = [(address(), address(), draws.word(), draws.one_of(COSTS)) for _ in range(draws.below(12))]
    return lines, calls, draws.below(2) == 0


def read_as(lines, calls, branches):
    events = THIRTEEN if branches else NINE
    shown = lambda address: "{}:{} [p]".format(*function(address))
    at = lambda address: "{}:{}".format(*place(address))
    texts = [(function(address), f"{shown(address)} at {at(address)} costs {numbers(cost, branches)}") for address, cost in lines]
    more = [(function(address), f"{shown(address)} at {at(address)} calls {count} times {shown(callee)} {numbers(cost, branches)}")
            for address, callee, count, cost in calls]
    by_function = lambda row: row[0]
    return ["command p", "events " + events] + [text for rows in (texts, more) for _, text in sorted(rows, key=by_function)]


def main():
    draws = Draws(1, 1)
    print("# parts that were drawn")
    if sys.argv[1:] == ["in"]:
        print("program drawn")
    for _ in range(200):
        lines, calls, branches = draw_part(draws)
        rows = [f"own {address:x} " + " ".join(map(str, cost)) for address, cost in lines]
        rows += [f"calls {address:x} {callee:x} {count} " + " ".join(map(str, cost)) for address, callee, count, cost in calls]
        head = "write - p p end 1 1" + (" 1" if branches else "")
        text = [head + " | " + ", ".join(rows) if rows else head]
        print(*text if sys.argv[1:] == ["in"] else read_as(lines, calls, branches), sep="\n")


if __name__ == "__main__":
    main()
