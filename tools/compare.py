#!/usr/bin/env python3
"""Compares two reports of `cgprof annotate`, as of two builds of a program:

    cgprof annotate --auto=yes FILES > old;  cgprof annotate --auto=yes OTHER-FILES > new
    tools/compare.py [--by=function|line] [--events=NAME,..] [--most=N] old new

For each event, or those that --events names, it prints the totals, and behind them each function, or each source line
with --by=line, whose own cost has changed, those that changed most first; at most N of them. The changes add up to that
of the total. A function is known by its file and name. Lines are matched by their texts, so lines that were put in or
taken out between the builds don't shift the others; both line numbers are shown where they differ."""

import argparse
import difflib
import signal
import sys

from report_text import Report, table, without_object


def by_function(report):
    """Each function's own costs."""
    own = {}
    for _, costs, name in report.functions:
        if not name.startswith("<cycle "):
            known = own.setdefault(without_object(name), [0] * len(costs))
            own[without_object(name)] = [a + b for a, b in zip(known, costs)]
    return own


def functions(old, new):
    """(name, old costs, new costs) of each function; None where a report hasn't the function."""
    before, after = by_function(old), by_function(new)
    return [(name, before.get(name), after.get(name)) for name in before | after]


def lines(old, new):
    """The same of each line of each source text."""
    pairs = []
    for file in old.sources | new.sources:
        pairs += lines_of(file, old.sources.get(file, []), new.sources.get(file, []))
    return pairs


def unshown(old, new, pairs, what):
    """The same of all that the reports don't show, together."""
    rests = []
    for report, side in ((old, 1), (new, 2)):
        shown = [pair[side] for pair in pairs if pair[side] is not None]
        rests.append([total - sum(costs[place] for costs in shown) for place, total in enumerate(report.totals)])
    return (f"({what} that the reports don't show)", *rests)


def lines_of(file, old, new):
    def label(line, text):
        return f"{file}:{line}  {text.strip()}"

    matches = difflib.SequenceMatcher(None, [text for _, text in old], [text for _, text in new], autojunk=False)
    for kind, old_from, old_to, new_from, new_to in matches.get_opcodes():
        if kind == "equal":
            for a, b in zip(range(old_from, old_to), range(new_from, new_to)):
                line = f"{b + 1}" if a == b else f"{a + 1}->{b + 1}"
                yield label(line, new[b][1]), old[a][0], new[b][0]
        else:
            yield from ((label(a + 1, old[a][1]), old[a][0], None) for a in range(old_from, old_to))
            yield from ((label(b + 1, new[b][1]), None, new[b][0]) for b in range(new_from, new_to))


def changes(place, old, new, pairs, most):
    """The rows of one event."""

    def row(name, before, after):
        numbers = [0 if costs is None else costs[place] for costs in (before, after)]
        shown = ["-" if costs is None else f"{costs[place]:,}" for costs in (before, after)]
        return numbers[1] - numbers[0], [*shown, f"{numbers[1] - numbers[0]:+,}", name]

    rows = sorted((row(*pair) for pair in pairs), key=lambda row: (-abs(row[0]), row[1][-1]))
    changed = [["", *words] for change, words in rows if change != 0]
    return [[old.events[place], *row("total", old.totals, new.totals)[1]], *changed[:most]]


def main():
    words = argparse.ArgumentParser(description=__doc__, formatter_class=argparse.RawDescriptionHelpFormatter)
    words.add_argument("--by", choices=["function", "line"], default="function")
    words.add_argument("--events", default="all")
    words.add_argument("--most", type=int)
    words.add_argument("old", type=argparse.FileType("r"))
    words.add_argument("new", type=argparse.FileType("r"))
    asked = words.parse_args()
    old, new = Report(asked.old.read()), Report(asked.new.read())
    if old.events != new.events:
        raise ValueError("the reports have other events")
    pairs = (lines if asked.by == "line" else functions)(old, new)
    pairs.append(unshown(old, new, pairs, f"{asked.by}s"))
    rows = [["event", "old", "new", "change", ""]]
    for place in old.places(asked.events):
        rows += changes(place, old, new, pairs, asked.most)
    print("\n".join(table(rows, left=[0])))


signal.signal(signal.SIGPIPE, signal.SIG_DFL)
try:
    main()
except ValueError as error:
    sys.exit(f"compare.py: {error}")
