"""A plain model of reading, joining and reporting profiles, written from its rules alone."""

import re

MOST = 2**64 - 1
NUMBER = r"\d+|0x[0-9a-fA-F]+"
POSITION = rf"[+-]?(?:{NUMBER})|\*"


class Bad(Exception):
    """Why a file isn't a profile, and the number of its first bad line, if it is one line's."""


class SumLimit(Exception):
    """The first position with a sum that has no room."""


def clean(name):
    letters = [letter if " " <= letter <= "~" else "?" for letter in name]
    for place in (0, -1):
        if letters and letters[place] == " ":
            letters[place] = "?"
    return "".join(letters) or "???"


def numbers(cost):
    return " ".join(map(str, cost))


def value(text):
    return int(text, 16) if text.startswith("0x") else int(text)


class Profile:
    """Rows: function, file, line and costs; and caller, file, line, callee, calls and costs. A function is its object,
    file and name. A byte of a text is a letter."""

    def __init__(self, events=()):
        self.events, self.command, self.selves, self.calls = list(events), None, [], []

    def join(self, other):
        """Whether the other profile has events that fit."""
        shorter, longer = sorted((self.events, other.events), key=len)
        if longer[: len(shorter)] != shorter:
            return False
        self.events = longer
        self.command = other.command if self.command is None else self.command
        self.selves += other.selves
        self.calls += other.calls
        for row in self.selves + self.calls:
            row[-1].extend([0] * (len(longer) - len(row[-1])))
        return True


class Reader:
    """A position has these parts, each counted from its own part of the last cost line's position. Where there is more than
    the line, positions have to be named before they come."""

    def __init__(self):
        self.profile = Profile()
        self.parts, self.bases, self.are_named = ["line"], [0], True
        self.object, self.file, self.function = "", "???", ("", "???", "???")
        self.called, self.open_call, self.names = {}, None, {"ob": {}, "fl": {}, "fn": {}}

    def name(self, kind, text):
        found = re.fullmatch(r"\((\d+)\) *(.*)", text, re.DOTALL)
        if not found:
            return text
        known, number = self.names[kind], int(found[1])
        if found[2]:
            known[number] = found[2]
        if number not in known:
            raise Bad("unknown id")
        return known[number]

    def place(self, text, base):
        if text == "*":
            return base
        place = value(text.lstrip("+-"))
        place = {"+": base + place, "-": base - place}.get(text[0], place)
        if not 0 <= place <= MOST:
            raise Bad("bad number")
        return place

    def number(self, text):
        if value(text) > MOST:
            raise Bad("bad number")
        return value(text)

    def cost_line(self, line):
        words = [word for word in line.split(" ") if word]
        if not self.profile.events:
            raise Bad("no events")
        parts = len(self.parts)
        shape = [POSITION] * parts + [NUMBER] * len(self.profile.events)
        if not self.are_named or not parts <= len(words) <= len(shape) or not all(map(re.fullmatch, shape, words)):
            raise Bad("bad line")
        self.bases = list(map(self.place, words, self.bases))
        place = self.bases[-1]
        cost = [self.number(word) for word in words[parts:]]
        cost += [0] * (len(self.profile.events) - len(cost))
        if self.open_call is None:
            self.profile.selves.append((self.function, self.file, place, cost))
            return
        callee = (self.called.get("cob", self.object), self.called.get("cfi", self.file), self.called["cfn"])
        self.profile.calls.append((self.function, self.file, place, callee, self.open_call, cost))
        self.called, self.open_call = {}, None

    def call(self, rest):
        words = [word for word in rest.split(" ") if word]
        if not self.profile.events:
            raise Bad("no events")
        shape = [NUMBER] + [POSITION] * len(self.parts)
        if len(words) != len(shape) or not all(map(re.fullmatch, shape, words)):
            raise Bad("bad line")
        if not self.are_named or "cfn" not in self.called:
            raise Bad("bad line")
        self.open_call = self.number(words[0])
        list(map(self.place, words[1:], self.bases))

    def head(self, word, rest):
        words = [piece for piece in rest.split(" ") if piece]
        if word == "events":
            differs = self.profile.events and self.profile.events != words
            if not 1 <= len(words) <= 64 or len(set(words)) < len(words) or differs:
                raise Bad("bad line")
            self.profile.events = words
        elif word == "positions":
            if words != self.parts:
                raise Bad("instr positions" if self.parts == ["line"] and "instr" in words else "bad line")
            self.are_named = True
        elif word == "cmd" and self.profile.command is None:
            self.profile.command = rest.strip(" \t")

    def named(self, word, rest):
        if word in ("ob", "fl", "fi", "fe", "fn"):
            kind = "fl" if word in ("fi", "fe") else word
            name = self.name(kind, rest)
            if kind == "ob":
                self.object = name
            elif kind == "fl":
                self.file = name
            else:
                self.function = (self.object, self.file, name)
        else:
            word = "cfi" if word == "cfl" else word
            self.called[word] = self.name({"cob": "ob", "cfi": "fl", "cfn": "fn"}[word], rest)

    def line(self, line):
        if line[0] in "0123456789+-*":
            return self.cost_line(line)
        if self.open_call is not None:
            raise Bad("bad line")
        if found := re.match(r"([A-Za-z]+):(.*)", line, re.DOTALL):
            return self.head(found[1], found[2])
        if re.match(r"(jump|jcnd|jfi|jfl|jfn|job)=", line):
            raise Bad("jumps")
        if line.startswith("calls="):
            return self.call(line[6:])
        if found := re.match(r"(ob|fl|fi|fe|fn|cob|cfi|cfl|cfn)=(.+)", line, re.DOTALL):
            return self.named(found[1], found[2])
        raise Bad("bad line")

    def read(self, content):
        last = None
        lines = [line.removesuffix("\r").strip(" \t") for line in content.decode("latin-1").split("\n")]
        named = next((line for line in lines if line.startswith("positions:")), "")
        if [word for word in named[10:].split(" ") if word] == ["instr", "line"]:
            self.parts, self.bases, self.are_named = ["instr", "line"], [0, 0], False
        for number, line in enumerate(lines, 1):
            if not line or line[0] == "#":
                continue
            try:
                self.line(line)
            except Bad as bad:
                raise Bad(bad.args[0], None if bad.args[0] == "no events" else number)
            last = number if line.startswith("calls=") else last
        if self.open_call is not None:
            raise Bad("bad line", last)
        if not self.profile.events:
            raise Bad("no events", None)
        return self.profile


def reached(start, ways):
    """What can be reached, last what can be reached from nothing behind it."""
    seen, out, path = set(), [], []
    for first in start:
        if first in seen:
            continue
        seen.add(first)
        path.append((first, iter(ways.get(first, ()))))
        while path:
            at, rest = path[-1]
            after = next((one for one in rest if one not in seen), None)
            if after is None:
                path.pop()
                out.append(at)
            else:
                seen.add(after)
                path.append((after, iter(ways.get(after, ()))))
    return out


class Report:
    def __init__(self, profile):
        self.profile = profile
        width = len(profile.events)
        functions = {row[0] for row in profile.selves} | {row[0] for row in profile.calls}
        functions |= {row[3] for row in profile.calls}
        self.order = sorted(functions, key=lambda function: (function[1], function[2], function[0]))
        self.own = {function: [0] * width for function in self.order}
        self.pairs = {}
        for row in profile.selves:
            self.add(self.own[row[0]], row[3])
        for row in profile.calls:
            pair = self.pairs.setdefault((row[0], row[3]), [0, [0] * width])
            pair[0] += row[4]
            self.add(pair[1], row[5])
        self.totals = [sum(row[3][event] for row in profile.selves) for event in range(width)]
        self.make_groups()
        self.look_at_sums()

    @staticmethod
    def add(sums, cost):
        for event, number in enumerate(cost):
            sums[event] += number

    def make_groups(self):
        """Two functions are of one group where each reaches the other: those that reach the last one of a walk."""
        on, back = {}, {}
        for caller, callee in self.pairs:
            on.setdefault(caller, []).append(callee)
            back.setdefault(callee, []).append(caller)
        self.group = {}
        for function in reversed(reached(self.order, on)):
            if function not in self.group:
                self.group.update(dict.fromkeys(self.near(function, back), function))
        self.members = {}
        for function in self.order:
            self.members.setdefault(self.group[function], []).append(function)
        self.incl = {group: [sum(costs) for costs in zip(*(self.own[one] for one in members))]
                     for group, members in self.members.items()}
        for (caller, callee), (_, cost) in self.pairs.items():
            if self.group[caller] != self.group[callee]:
                self.add(self.incl[self.group[caller]], cost)

    def near(self, function, back):
        """Those without a group from which the function can be reached."""
        found, ways = {function}, [function]
        while ways:
            new = {one for one in back.get(ways.pop(), ()) if one not in found and one not in self.group}
            found |= new
            ways += new
        return found

    def look_at_sums(self):
        costs = [self.totals] + [pair[1] for pair in self.pairs.values()] + list(self.incl.values())
        for event in range(len(self.profile.events)):
            if any(cost[event] > MOST for cost in costs):
                raise SumLimit(event)
        if any(pair[0] > MOST for pair in self.pairs.values()):
            raise SumLimit(len(self.profile.events))

    @staticmethod
    def printed(function):
        place, file, name = map(clean, function)
        return f"{file}:{name}" + (f" [{place}]" if function[0] else "")

    def text(self, sort, threshold, tree, sources):
        events = self.profile.events
        event = events.index(sort)
        command = "???" if self.profile.command is None else clean(self.profile.command)
        lines = ["command: " + command, "events: " + " ".join(events), "totals: " + numbers(self.totals)]
        lines += [f"sort: {sort} threshold: {threshold}", "", "-- functions"]
        places = {function: place for place, function in enumerate(self.order)}
        groups = sorted(self.members, key=lambda group: (-self.incl[group][event], places[self.members[group][0]]))
        shown, cycles = [], 0
        for group in groups:
            members, incl = self.members[group], self.incl[group]
            if incl[event] * 100 < threshold * self.totals[event]:
                continue
            shown += members
            own = [sum(costs) for costs in zip(*(self.own[one] for one in members))]
            if len(members) == 1:
                lines.append(f"{numbers(incl)} | {numbers(own)} | {self.printed(group)}")
            else:
                cycles += 1
                lines.append(f"{numbers(incl)} | {numbers(own)} | <cycle {cycles}>")
                lines += [f"  - | {numbers(self.own[one])} | {self.printed(one)}" for one in members]
        if tree != "none":
            lines += ["", "-- calls"]
            for function in shown:
                lines += [self.printed(function)] + self.callers(function, tree) + self.callees(function, tree)
        return lines + self.source_lines(sources)

    def pair(self, mark, caller, callee, other):
        calls, cost = self.pairs[caller, callee]
        cost = "-" if self.group[caller] == self.group[callee] else numbers(cost)
        return f"  {mark} {calls} | {cost} | {self.printed(other)}"

    def callers(self, function, tree):
        wanted = self.order if tree in ("caller", "both") else []
        return [self.pair("<", one, function, one) for one in wanted if (one, function) in self.pairs]

    def callees(self, function, tree):
        wanted = self.order if tree in ("calling", "both") else []
        return [self.pair(">", function, one, one) for one in wanted if (function, one) in self.pairs]

    def files(self):
        return sorted({row[1] for row in self.profile.selves} - {"???"})

    def source_lines(self, sources):
        """Sources: a file and its text, or its length, or nothing."""
        lines = []
        for file, source in sources:
            costs = {}
            for row in self.profile.selves:
                if row[1] == file:
                    self.add(costs.setdefault(row[2], [0] * len(row[3])), row[3])
            if source is None or isinstance(source, int):
                lines += ["", ("-- no source " if source is None else "-- source too long ") + clean(file)]
                continue
            lines += ["", "-- source " + clean(file)]
            texts = source.decode("latin-1").split("\n")
            texts = texts[:-1] if texts[-1] == "" else texts
            for number, text in enumerate(texts, 1):
                text = "".join(letter if " " <= letter <= "~" or letter == "\t" else "?" for letter in text)
                lines.append((numbers(costs[number]) if number in costs else ".") + " | " + text)
            rest = sorted(number for number in costs if not 1 <= number <= len(texts))
            lines += [f"{numbers(costs[number])} | <line {number}>" for number in rest]
        return lines
