#!/usr/bin/env python3
"""Says of the parts in the script beside it what they are: `python3 parts.py < ../stdin` prints what the lines `write` of the
scene `parts` have to print, and `python3 parts.py read < LINES` the lines of `cases_reading` that read them again. A
part is written as the Callgrind Format Specification says (Valgrind manual, version 1), with names that are compressed."""
import sys

sys.dont_write_bytecode = True
from programs import PROGRAMS  # noqa: E402

NINE = "Ir Dr Dw I1mr D1mr D1mw ILmr DLmr DLmw".split()
THIRTEEN = NINE + "Bc Bcm Bi Bim".split()
CACHES = ["I1 cache: 32768 B, 64 B, 8-way", "D1 cache: 32768 B, 64 B, 8-way", "LL cache: 8388608 B, 64 B, 16-way"]


def cleaned(name):
    """Bytes that can be printed and aren't a space at an end, and `?` for the others."""
    last = len(name) - 1
    keep = lambda place, letter: " " <= letter <= "~" and not (letter == " " and place in (0, last))
    return "".join(letter if keep(place, letter) else "?" for place, letter in enumerate(name)) or "???"


class Map:
    """The functions and the lines of a program."""

    def __init__(self, name):
        _, _, self.functions, self.files, self.lines = PROGRAMS[name]

    def place(self, addr):
        """The file and the line of an address."""
        rows = [row for row in self.lines[:-1] if row[0] <= addr]
        if not rows or addr >= self.lines[-1]:
            return "???", 0
        return cleaned(self.files[rows[-1][1]]), rows[-1][2]

    def function(self, addr):
        """The file and the name of an address's function, whose file is that of its first instruction."""
        for name, first, size in self.functions:
            if first <= addr < first + size:
                return self.place(first)[0], cleaned(name)
        return "???", "???"

    def entry_line(self, function):
        """The line of the lowest entry of a function."""
        entries = [first for _, first, _ in self.functions if self.function(first) == function]
        return self.place(min(entries))[1] if entries else 0


class Part:
    """The lines of a part."""

    def __init__(self, syms, events):
        self.syms, self.events, self.lines = syms, events, []
        self.file, self.function, self.ids = None, None, {}

    def named(self, word, key, name):
        """A name with its number, which stands alone from its second time on."""
        kind = "fn" if "fn" in word else "file"
        names = self.ids.setdefault(kind, {})
        if key in names:
            return self.lines.append(f"{word}=({names[key]})")
        names[key] = len(names) + 1
        self.lines.append(f"{word}=({names[key]}) {name}")

    def cost(self, line, cost):
        self.lines.append(" ".join(map(str, [line, *cost[:self.events]])))

    def at(self, addr, object):
        """Goes to the function and the file of an address, and gives its line."""
        function, (file, line) = self.syms.function(addr), self.syms.place(addr)
        if function != self.function:
            self.lines += [""] if self.function else ["", f"ob=(1) {object}"]
            if self.file != function[0]:
                self.named("fl", function[0], function[0])
            self.named("fn", function, function[1])
            self.file, self.function = function[0], function
        if file != self.file:
            self.named("fe" if file == function[0] else "fi", file, file)
            self.file = file
        return line

    def call(self, callee, calls):
        function = self.syms.function(callee)
        if function[0] != self.file:
            self.named("cfi", function[0], function[0])
        self.named("cfn", function, function[1])
        self.lines.append(f"calls={calls} {self.syms.entry_line(function)}")


def spelled(text):
    return text.translate(str.maketrans("~^|@", " \t\n\xff"))


def trigger(word):
    kind, _, said = word.partition(":")
    said = said if kind == "every" else cleaned(spelled(said))
    return "Program termination" if kind == "end" else f"--dump-{kind}={said}"


def rows_of(text):
    """The rows of a part: the address of each, its callee and count where it is a call, and its cost."""
    for row in text.split(", ") if text else []:
        kind, addr, *numbers = row.split(" ")
        callee = (int(numbers[0], 16), int(numbers[1])) if kind == "calls" else None
        cost = [int(number) for number in numbers[2 if callee else 0:]]
        yield int(addr, 16), callee, cost + [0] * (13 - len(cost))


def text_of(syms, head, rows):
    cmd, object, why, thread, part, *branches = head.split(" ")
    events = THIRTEEN if branches == ["1"] else NINE
    rows = sorted(rows_of(rows), key=lambda row: row[1] is not None)
    sums = [sum(cost[kind] for _, callee, cost in rows if not callee) for kind in range(len(events))]
    made = Part(syms, len(events))
    made.lines = ["# callgrind format", "version: 1", "creator: cgprof-1", "pid: 1", f"thread: {thread}", f"part: {part}",
                  "cmd: " + cleaned(spelled(cmd)), *(f"desc: {cache} associative" for cache in CACHES),
                  "desc: Trigger: " + trigger(why), "positions: line", " ".join(["events:", *events]),
                  " ".join(["summary:", *map(str, sums)])]
    # a function's rows stand together, in their order
    for addr, callee, cost in sorted(rows, key=lambda row: syms.function(row[0])):
        line = made.at(addr, cleaned(spelled(object)))
        if callee:
            made.call(*callee)
        made.cost(line, cost)
    made.lines += ["", " ".join(["totals:", *map(str, sums)])]
    return "".join(line + "\n" for line in made.lines)


def read_line(text):
    """A text as a line of the script of `cases_reading`: `;` is a line feed."""
    hidden = lambda letter: f"\\{ord(letter):02x}" if letter in ";\\" or not " " <= letter <= "~" else letter
    return ";".join("".join(map(hidden, line)) for line in text.split("\n"))


def main():
    syms = None
    for line in sys.stdin.read().split("\n"):
        word, _, rest = line.partition(" ")
        if word == "program":
            syms = Map(rest)
        elif word == "write":
            head, _, rows = rest.partition(" ")[2].partition(" | ")
            text = text_of(syms, head, rows)
            if sys.argv[1:] == ["read"]:
                print(f"read {read_line(text)}\nrows")
            else:
                print(f"{len(text)} bytes\n{text}", end="")
        elif word == "#":
            print(line)


if __name__ == "__main__":
    main()
