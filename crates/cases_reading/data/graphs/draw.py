#!/usr/bin/env python3
"""Draws 20,000 graphs of up to 8 functions, 20 a line: `draw.py in` writes how many functions each has and its calls, by the
digits of caller and callee; `draw.py out` the first function of each one's group, with a star where the group is a cycle. Two
functions are of one group where each reaches the other, by the closure of the calls."""
import os
import sys

sys.path.insert(0, os.path.join(os.path.dirname(os.path.abspath(__file__)), ".."))
from draws import Draws  # noqa: E402


def draw(draws):
    functions, count = draws.below(8) + 1, draws.below(14)
    return functions, [(draws.below(functions), draws.below(functions)) for _ in range(count)]


def shown(functions, calls):
    return " ".join([str(functions)] + [f"{caller}{callee}" for caller, callee in calls])


def firsts(functions, calls):
    reach = set(calls)
    for middle in range(functions):
        into = [one for one in range(functions) if (one, middle) in reach]
        out = [one for one in range(functions) if (middle, one) in reach]
        reach |= {(one, other) for one in into for other in out}
    first = lambda func: next(one for one in range(func + 1) if one == func or {(one, func), (func, one)} <= reach)
    return "".join(f"{first(func)}{'*' * ((func, func) in reach)}" for func in range(functions))


def main():
    draws = Draws(42, 54)
    print("# graphs of up to 8 functions that are drawn, beside the closures of their arcs")
    for _ in range(1000):
        graphs = [draw(draws) for _ in range(20)]
        if sys.argv[1:] == ["in"]:
            print("small " + ";".join(shown(*graph) for graph in graphs))
        else:
            print("groups " + " ".join(firsts(*graph) for graph in graphs))


if __name__ == "__main__":
    main()
