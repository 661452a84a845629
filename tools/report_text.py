"""The text of a report, as `cgprof annotate` and `cgprof report` print it, taken apart."""


def numbers(text):
    """The costs of a row, None where it has none."""
    return None if text in (".", "-") else [int(word) for word in text.split()]


class Report:
    """`before`: what stands before it (the guest's output); `heading`: its first lines; `events`, `totals` and `sort`;
    `functions`: (inclusive costs, own costs, name); `calls`: each function's name and its (mark, count, costs, name);
    `sources`: of each file its (costs, text); `missing`: what is said of files whose text isn't shown."""

    def __init__(self, text):
        lines = text.splitlines()
        pairs = enumerate(zip(lines, lines[1:]))
        starts = [at for at, (a, b) in pairs if a.startswith("command: ") and b.startswith("events: ")]
        if not starts:
            raise ValueError("no report: it has no lines `command: ..` and `events: ..`")
        self.before, lines = lines[: starts[-1]], lines[starts[-1] :]
        self.heading = lines[:4]
        self.events = lines[1].split()[1:]
        self.totals = numbers(lines[2].removeprefix("totals: "))
        self.sort = lines[3].split()[1]
        self.functions, self.calls, self.sources, self.missing = [], [], {}, []
        section, file = "", ""
        for line in lines[4:]:
            if line.startswith("-- "):
                section, _, file = line[3:].partition(" ")
                if section == "source" and not file.startswith("too long "):
                    self.sources[file] = []
                elif section in ("no", "source"):
                    self.missing.append(line)
            elif line:
                self.add(section, file, line)

    def add(self, section, file, line):
        if section == "functions":
            inclusive, own, name = line.split(" | ", 2)
            self.functions.append((numbers(inclusive.strip()), numbers(own), name))
        elif section == "source":
            costs, text = line.split(" | ", 1)
            self.sources[file].append((numbers(costs), text))
        elif line.startswith(("  < ", "  > ")):
            count, costs, name = line[4:].split(" | ", 2)
            self.calls[-1][1].append((line[2], int(count), numbers(costs), name))
        else:
            self.calls.append((line, []))

    def places(self, events):
        """The places of these events (names with commas between them, `all`, or None: the one that is sorted by)."""
        if events == "all":
            return list(range(len(self.events)))
        names = [self.sort] if events is None else events.split(",")
        for name in names:
            if name not in self.events:
                raise ValueError(f"no event {name} among {' '.join(self.events)}")
        return [self.events.index(name) for name in names]


def without_object(name):
    """A function's printed name without the program that it is of."""
    front, bracket, _ = name.rpartition(" [")
    return front if bracket and name.endswith("]") else name


def table(rows, left=()):
    """Rows of words in columns: to the right, but the last one and those in `left`."""
    if not rows:
        return []
    widths = [max(len(row[at]) for row in rows) for at in range(len(rows[0]) - 1)]
    lines = []
    for row in rows:
        cells = [row[at].ljust(width) if at in left else row[at].rjust(width) for at, width in enumerate(widths)]
        lines.append("  ".join([*cells, row[-1]]).rstrip())
    return lines
