#!/usr/bin/env python3
"""The scene `once`: traces of events that cost one instruction each, by the functions on the stack before each event, the
top first. `once.py in` writes their rows as profiles: an event counts for the top, and for each call of the stack. `once.py
out` writes what a report on them has to say, by the stacks alone: a group costs the events during which one of its members
stands on the stack, each counted once, and a call from one group into another those during which the callee stands on the
caller."""
import os
import sys

HERE = os.path.dirname(os.path.abspath(__file__))
sys.path[:0] = [os.path.join(HERE, ".."), os.path.join(HERE, "../../../cases_run/data")]
import profiles  # noqa: E402
from draws import Draws  # noqa: E402

RECURSION = [["4"] * 2, ["14"] * 5, ["114"] * 5, ["1114"] * 5, ["11114"] * 7, ["1114"] * 3, ["114"] * 3, ["14"] * 3, ["4"] * 3]
WORKED = [
    ("# a function calls itself until it has four activations: 1 is the function, and 4 main", [sum(RECURSION, [])]),
    ("# two threads that call the function, in two orders", [["4", "4", "14", "14"], ["4", "14", "4", "14"]]),
]


def drawn(draws):
    """A trace of up to six events, each under up to four functions."""
    return ["".join(str(draws.word() % 5) for _ in range(draws.below(4) + 1)) for _ in range(draws.below(6) + 1)]


def calls(stack):
    """The calls of a stack, each with its caller first."""
    return [(caller, callee) for callee, caller in zip(stack, stack[1:])]


def rows(trace):
    lines = ["events: Ir"]
    for stack in trace:
        lines += [f"fn={stack[0]}", "1 1"]
        for caller, callee in calls(stack):
            lines += [f"fn={caller}", f"cfn={callee}", "calls=1 1", "1 1"]
    return "read " + ";".join(lines)


def function(name):
    return "", "???", name


class ByStacks(profiles.Report):
    """A report whose inclusive costs and costs of calls are counted over the stacks."""

    def __init__(self, trace):
        profile = profiles.Profile(["Ir"])
        for stack in trace:
            profile.selves.append((function(stack[0]), "???", 1, [1]))
            profile.calls += [(function(caller), "???", 1, function(callee), 1, [0]) for caller, callee in calls(stack)]
        super().__init__(profile)
        for group, members in self.members.items():
            self.incl[group] = [sum(any(name in stack for *_, name in members) for stack in trace)]
        for (caller, callee), pair in self.pairs.items():
            pair[1] = [sum((caller[2], callee[2]) in calls(stack) for stack in trace)]


def report(trace):
    lines = ByStacks(trace).text("Ir", 0, "calling", [])
    return "\n".join(lines[lines.index("-- functions") + 1:])


def main():
    draws = Draws(42, 54)
    scene = WORKED + [("# traces of up to six stacks that are drawn", [drawn(draws) for _ in range(1000)])]
    print("scene once")
    for note, traces in scene:
        print(note)
        for trace in traces:
            print(rows(trace) + "\nbelow 0 0 calling no" if sys.argv[1:] == ["in"] else report(trace))


if __name__ == "__main__":
    main()
