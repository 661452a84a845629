#!/usr/bin/env python3
"""Prints a report of `cgprof annotate` or `cgprof report` in columns, each name whole:

    cgprof annotate FILES | tools/show.py [--events=NAME,..|all] [--only=WORD]

A function has its inclusive cost (all events while it or what it called was running) and its own, each with its share
of the total. Costs are of the event that the report is sorted by, or of those that --events names. With --only it shows
the parts of the report alone (functions, calls, the source of a file) whose title has this WORD in it."""

import argparse
import signal
import sys

from report_text import Report, table, without_object


def number(costs, place):
    return "-" if costs is None else f"{costs[place]:,}"


def functions(report, places, named):
    def share(costs, place):
        return "" if costs is None else f"{100 * costs[place] / max(report.totals[place], 1):.1f}%"

    rows = [[*(title for place in places for title in (report.events[place], "", "own", "")), "function"]]
    for inclusive, own, name in report.functions:
        cells = [cell(costs, place) for place in places for costs in (inclusive, own) for cell in (number, share)]
        rows.append([*cells, ("  " if inclusive is None else "") + named(name)])
    return table(rows)


def calls(report, places, named):
    rows = [["calls", *(report.events[place] for place in places), ""]]
    for _, pairs in report.calls:
        for mark, count, costs, name in pairs:
            rows.append([f"{count:,}", *(number(costs, place) for place in places), f"{mark} {named(name)}"])
    title, *lines = table(rows)
    shown, at = [title], 0
    for function, pairs in report.calls:
        shown += [named(function), *lines[at : at + len(pairs)]]
        at += len(pairs)
    return shown


def source(report, places, lines):
    rows = [["line", *(report.events[place] for place in places), ""]]
    for at, (costs, text) in enumerate(lines, 1):
        rows.append([str(at), *("" if costs is None else number(costs, place) for place in places), text])
    return table(rows)


def sections(report, places):
    """The titles of the report's parts, and their lines."""
    names = [name for _, _, name in report.functions if not name.startswith("<cycle ")]
    objects = {name.removeprefix(without_object(name)) for name in names}
    named = without_object if len(objects) == 1 else str
    yield "functions", functions(report, places, named)
    if report.calls:
        yield "calls", calls(report, places, named)
    for file, lines in report.sources.items():
        yield f"source {file}", source(report, places, lines)


def main():
    words = argparse.ArgumentParser(description=__doc__, formatter_class=argparse.RawDescriptionHelpFormatter)
    words.add_argument("--events")
    words.add_argument("--only")
    words.add_argument("file", nargs="?", type=argparse.FileType("r"), default=sys.stdin)
    asked = words.parse_args()
    report = Report(asked.file.read())
    shown = list(sections(report, report.places(asked.events)))
    whole = asked.only is None
    if whole:
        print("\n".join([*report.before, *report.heading]))
    for title, lines in shown:
        if whole:
            print("\n".join(["", f"-- {title}", *lines]))
        elif asked.only in title:
            print("\n".join(lines))
    if whole and report.missing:
        print("\n".join(["", *report.missing]))


signal.signal(signal.SIGPIPE, signal.SIG_DFL)
try:
    main()
except ValueError as error:
    sys.exit(f"show.py: {error}")
