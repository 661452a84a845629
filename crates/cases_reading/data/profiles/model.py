#!/usr/bin/env python3
"""What the scene `profiles` has to print: `python3 model.py < LINES`, with the lines of `stdin` from `scene profiles` on.

Reading, joining and reporting are those of the plain model of `cases_run/data/profiles.py`; here are the words of the
script. What each worked case has to print was written by hand, or is what callgrind_annotate says of Callgrind's files,
and the model prints the same. The last 200 profiles were drawn by `draw.py`.
"""
import os
import re
import sys

HERE = os.path.dirname(os.path.abspath(__file__))
sys.path.insert(0, os.path.join(HERE, "../../../cases_run/data"))
import profiles  # noqa: E402

WORDS = {
    "bad line": "is malformed", "jumps": "speaks of jumps", "unknown id": "has an unknown id",
    "bad number": "has a number out of range", "instr positions": "asks for positions of instructions",
}


def content(text):
    if text.startswith("@"):
        with open(os.path.join(HERE, "..", text[1:]), "rb") as file:
            return file.read()
    text = re.sub(r"\\(..)", lambda found: chr(int(found[1], 16)), text.replace(";", "\n"))
    return text.encode("latin-1")


def escaped(text):
    return "".join(letter if letter == "\n" or " " <= letter <= "~" and letter != "\\" else f"\\{ord(letter):02x}"
                   for letter in text)


class Reader(profiles.Reader):
    """Keeps the address of each row."""

    def __init__(self):
        super().__init__()
        self.own, self.called_at = [], []

    def cost_line(self, line):
        is_call = self.open_call is not None
        super().cost_line(line)
        (self.called_at if is_call else self.own).append(self.bases[0])


def refusal(bad):
    kind, line = bad.args
    return "no events are named" if kind == "no events" else f"line {line} {WORDS[kind]}"


def numbers(cost):
    return "".join(f" {number}" for number in cost)


class Stage:
    def __init__(self):
        self.profile, self.known = None, {}

    def read(self, text):
        self.known = {}
        try:
            self.profile = Reader().read(content(text))
        except profiles.Bad as bad:
            return [refusal(bad)]
        return []

    def join(self, text):
        return [] if self.profile.join(Reader().read(content(text))) else ["the events differ"]

    def source(self, rest):
        name, _, text = rest.partition(" ")
        self.known.setdefault(content(name).decode("latin-1"), content(text))
        return []

    def long(self, rest):
        name, count = rest.split(" ")
        self.known.setdefault(content(name).decode("latin-1"), int(count))
        return []

    def kind(self, text):
        reader, text = Reader(), content(text)
        try:
            reader.read(text)
            answer = "read"
        except profiles.Bad as bad:
            answer = refusal(bad)
        return [("addresses" if len(reader.parts) == 2 else "lines") + ": " + answer]

    def addresses(self, text):
        reader, kept = Reader(), self.profile
        self.profile = reader.read(content(text))
        lines, (selves, calls) = self.counts(""), (self.profile.selves, self.profile.calls)
        self.profile = kept
        if len(reader.parts) == 2:
            for kind, places, rows in ("self", reader.own, selves), ("call", reader.called_at, calls):
                lines.append(f"{kind} rows:" + "".join(f" {place:x}:{row[2]}" for place, row in zip(places, rows)))
        return lines

    def counts(self, _):
        selves, calls = self.profile.selves, self.profile.calls
        functions = {row[0] for row in selves + calls} | {row[3] for row in calls}
        files = {row[1] for row in selves + calls}
        totals = [sum(row[3][event] for row in selves) for event in range(len(self.profile.events))]
        over = next((event for event, total in enumerate(totals) if total > profiles.MOST), None)
        return [f"{len(functions)} functions, {len(files)} files, {len(selves)} self rows, {len(calls)} call rows",
                "totals:" + numbers(totals) if over is None else f"the sum for event {over} is above 2^64 - 1"]

    def rows(self, _):
        command = self.profile.command
        lines = ["no command" if command is None else "command " + escaped(command)]
        lines.append("events" + "".join(" " + escaped(event) for event in self.profile.events))
        shown = lambda function: escaped("{1}:{2} [{0}]".format(*function))
        for function, file, line, cost in self.profile.selves:
            lines.append(f"{shown(function)} at {escaped(file)}:{line} costs" + numbers(cost))
        for caller, file, line, callee, calls, cost in self.profile.calls:
            lines.append(f"{shown(caller)} at {escaped(file)}:{line} calls {calls} times {shown(callee)}" + numbers(cost))
        return lines

    def event(self, name):
        return [str(self.profile.events.index(name)) if name in self.profile.events else "there is none"]

    def reported(self):
        try:
            return profiles.Report(self.profile), []
        except profiles.SumLimit as limit:
            return None, [f"a sum at position {limit.args[0]} is above 2^64 - 1"]

    def groups(self, _):
        report, lines = self.reported()
        if report is None:
            return lines
        for group, members in report.members.items():
            names = sorted(escaped(function[2]) for function in members)
            star = " *" if len(members) > 1 or (group, group) in report.pairs else ""
            lines.append(" ".join(names) + star + numbers(report.incl[group]))
        return sorted(lines)

    def files(self, _):
        return [escaped(name) for name in profiles.Report(self.profile).files()]

    def report(self, rest):
        sort, threshold, tree, auto = rest.split(" ")
        report, lines = self.reported()
        if report is None:
            return lines
        sources = [(name, self.known.get(name)) for name in report.files()] if auto == "yes" else []
        text = report.text(self.profile.events[int(sort)], int(threshold), tree, sources)
        return escaped("\n".join(text)).split("\n")

    def below(self, rest):
        lines = self.report(rest)
        return lines[lines.index("-- functions") + 1:] if "-- functions" in lines else lines

    def follow(self, line):
        word, _, rest = line.partition(" ")
        return getattr(self, word)(rest)


def main():
    stage = Stage()
    for line in sys.stdin.read().splitlines():
        is_note = not line or line.startswith("# ") or line.startswith("scene ")
        for text in [line] if is_note else stage.follow(line):
            print(text)


if __name__ == "__main__":
    main()
