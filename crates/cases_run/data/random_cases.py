#!/usr/bin/env python3
"""Writes cases of random programs and profiles for the script beside it: `python3 random_cases.py FIRST COUNT` makes one
from each seed. Programs do anything: they jump and call at random, change themselves, make system calls and threads; or
they have threads that share nothing, and end. Each is run, whole and cut, in other turns and by address, reported, and
read again from its parts; then a call of the folder and one of a sink fail. What is to be printed says the model."""

import contextlib
import io
import random
import sys

sys.dont_write_bytecode = True
sys.path.append("../../cases_parts/data")
import model
import programs

CODE, DATA = 0x10000, 0x20000
RA, SP, T0, T1, S0, S1, A0, A7 = 1, 2, 5, 6, 8, 9, 10, 17
ECALL = 0x73
NAMES = ["main", "f", "g", "h", "k", "a b", "n\t", "f.cold", "m", "p"]
USED = [0, RA, T0, T1, A0, 11, 12, 13, 14, S0, S1, SP]
RESULTS = [0, RA, T0, T1, A0, 11, 12, 13, 14]
OWN = [T1, 11, 12, 13, 14]
# each call that is played, and one that isn't
CALLS = [29, 56, 57, 62, 63, 64, 65, 66, 93, 94, 96, 98, 99, 124, 129, 130, 131, 134, 135, 172, 174, 175, 176, 177, 178]
CALLS += [214, 215, 216, 220, 222, 226, 233, 278, 291, 403, 422, 435, 500]
ATOMS = [2, 3, 1, 0, 4, 12, 8, 16, 20, 24, 28]
STACK, NUMBER, ROUNDS = 19, 20, 21


def immediate(opcode, kind, to, source, value):
    return (value & 0xFFF) << 20 | source << 15 | kind << 12 | to << 7 | opcode


def calculate(kind, to, source, value):
    return immediate(0x13, kind, to, source, value)


def add(to, source, value):
    return calculate(0, to, source, value)


def combine(row, kind, to, first, second):
    return row << 25 | second << 20 | first << 15 | kind << 12 | to << 7 | 0x33


def load(kind, to, base, offset):
    return immediate(0x03, kind, to, base, offset)


def store(kind, source, base, offset):
    return (offset >> 5 & 0x7F) << 25 | source << 20 | base << 15 | kind << 12 | (offset & 31) << 7 | 0x23


def atomic(row, to, base, source):
    return row << 27 | source << 20 | base << 15 | 2 << 12 | to << 7 | 0x2F


def upper(to, value, opcode=0x37):
    return (value & 0xFFFFF) << 12 | to << 7 | opcode


def jump(to, offset):
    high = (offset >> 20 & 1) << 31 | (offset >> 1 & 0x3FF) << 21
    return high | (offset >> 11 & 1) << 20 | (offset >> 12 & 0xFF) << 12 | to << 7 | 0x6F


def jump_by(to, source, offset):
    return immediate(0x67, 0, to, source, offset)


def branch(kind, first, second, offset):
    high = (offset >> 12 & 1) << 31 | (offset >> 5 & 0x3F) << 25
    low = (offset >> 1 & 0xF) << 8 | (offset >> 11 & 1) << 7
    return high | second << 20 | first << 15 | kind << 12 | low | 0x63


class Chaos:
    """Code that does anything."""

    def __init__(self, dice):
        self.dice, self.size = dice, 8 + dice.randrange(70)
        self.starts, self.words, at = [0], [upper(S0, 0x20), upper(S1, 0x10)], 2
        for _ in range(8):
            at += 2 + dice.randrange(14)
            self.starts += [at] * (at < self.size)
        while len(self.words) < self.size:
            self.words += self.some()
        self.words += [add(A7, 0, dice.choice([93, 94])), ECALL]

    def small(self):
        return self.dice.randrange(1 << 32) if self.dice.randrange(4) == 0 else self.dice.randrange(9) - 4

    def to(self, place):
        return 4 * (place - len(self.words))

    def plain(self):
        pick = self.dice.choice
        to, first, second, kind = pick(RESULTS), pick(USED), pick(USED), self.dice.randrange(6)
        if kind < 2:
            return combine(kind, self.dice.randrange(8), to, first, second)
        if kind == 2:
            return combine(0x20, pick([0, 5]), to, first, second)
        if kind == 3:
            return upper(to, pick([0x10, 0x11, 0x20, 0x7D1, 0x80000]))
        return calculate(pick([0, 0, 0, 2, 3, 4, 6, 7]), to, first, self.small())

    def reference(self):
        pick, kind = self.dice.choice, self.dice.randrange(5)
        base, offset, register = pick([S0, S0, S0, SP, SP, S1]), self.dice.randrange(256), pick(USED)
        if kind == 0:
            return atomic(pick(ATOMS), register, S0, pick([0, 0, A0, T0]))
        if kind < 3:
            return store(pick([0, 1, 2, 2]), register, base, offset)
        return load(pick([0, 1, 2, 2, 4, 5]), pick(RESULTS), base, offset)

    def flow(self):
        pick, kind = self.dice.choice, self.dice.randrange(9)
        start, anywhere, link = pick(self.starts), self.dice.randrange(self.size), pick([RA, RA, RA, T0, 0, 7])
        if kind < 3:
            return jump(link, self.to(start))
        if kind == 3:
            return jump(pick([0, RA]), self.to(anywhere))
        if kind < 6:
            return jump_by(0, pick([RA, RA, RA, T0]), 0)
        if kind == 6:
            return jump_by(link, pick([RA, T0, S1]), 4 * self.dice.randrange(64))
        return branch(pick([0, 1, 1, 4, 5, 6, 7]), pick(USED), pick([0, 0, A0, T0]), self.to(anywhere))

    def some(self):
        """An instruction, or a few."""
        pick, kind = self.dice.choice, self.dice.randrange(40)
        if kind < 13:
            return [self.plain()]
        if kind < 22:
            return [self.reference()]
        if kind < 32:
            return [self.flow()]
        if kind == 32:
            return [upper(T0, 0, 0x17), jump_by(pick([RA, 0]), T0, self.to(pick(self.starts)))]
        if kind == 33:
            return [add(SP, SP, pick([16, -16, -16]))]
        if kind < 36:
            first = [add(A0, pick([0, S0]), self.dice.randrange(3))] * self.dice.randrange(2)
            number = self.dice.randrange(500) if self.dice.randrange(12) == 0 else pick(CALLS)
            return first + [add(A7, 0, number), ECALL]
        if kind == 36:
            stack = add(11, SP, 0xF00 * self.dice.randrange(4))
            return [upper(A0, 0x11), add(A0, A0, -256), stack, add(A7, 0, 220), ECALL]
        if kind == 37 and self.dice.randrange(4) == 0:
            return [self.dice.randrange(1 << 32)]
        return [add(A0, A0, self.small())]


class Apart:
    """Threads besides the first one: each has a stack and a piece of the data of its own, and does the same as the
    others, which ends. The first word jumps behind the functions."""

    def __init__(self, dice):
        self.dice, self.starts, self.words, threads = dice, [], [0], dice.randrange(4)
        for _ in range(1 + dice.randrange(4)):
            self.function()
        self.words[0] = jump(0, 4 * len(self.words))
        self.words += [upper(S0, 0x20), add(STACK, SP, 0), add(NUMBER, 0, 0)]
        for left in reversed(range(threads)):
            self.words += [add(NUMBER, NUMBER, 1), upper(T0, 1), combine(0x20, 0, STACK, STACK, T0), add(11, STACK, 0)]
            self.words += [upper(A0, 0x11), add(A0, A0, -256), add(A7, 0, 220), ECALL, branch(0, A0, 0, 36 * left + 8)]
        self.words += [add(NUMBER, 0, 0), calculate(1, T0, NUMBER, 8), combine(0, 0, S0, S0, T0)]
        self.work()

    def step(self):
        pick = self.dice.choice
        to, first, second = pick(OWN), pick([0, *OWN]), pick([0, *OWN])
        offset, kind = 4 * self.dice.randrange(60), self.dice.randrange(8)
        if kind < 2:
            return store(2, first, S0, offset)
        if kind == 2:
            return load(pick([0, 1, 2, 4, 5]), to, S0, offset)
        if kind == 3:
            return atomic(pick([0, 1, 4, 8, 12, 16, 28]), to, S0, first)
        if kind == 4:
            return combine(pick([0, 1]), self.dice.randrange(8), to, first, second)
        if kind == 5:
            return store(self.dice.randrange(3), first, SP, offset - 240)
        return calculate(pick([0, 2, 3, 4, 6, 7]), to, first, self.dice.randrange(4096))

    def steps(self):
        pick = self.dice.choice
        for _ in range(1 + self.dice.randrange(4)):
            if self.dice.randrange(4) == 0:
                self.words.append(branch(pick([0, 1, 4, 5, 6, 7]), pick([0, *OWN]), pick([0, *OWN]), 8))
            self.words.append(self.step())

    def call(self):
        self.words.append(jump(RA, 4 * (self.dice.choice(self.starts) - len(self.words))))

    def function(self):
        start = len(self.words)
        self.words += [add(SP, SP, -16), store(2, RA, SP, 12)]
        self.steps()
        if self.starts:
            self.call()
            self.steps()
        self.words += [load(2, RA, SP, 12), add(SP, SP, 16), jump_by(0, RA, 0)]
        self.starts.append(start)

    def work(self):
        self.words.append(add(ROUNDS, 0, 1 + self.dice.randrange(6)))
        top = len(self.words)
        self.steps()
        for _ in range(self.dice.randrange(3)):
            self.call()
        self.words.append(add(ROUNDS, ROUNDS, -1))
        self.words += [branch(1, ROUNDS, 0, 4 * (top - len(self.words))), add(A7, 0, 93), ECALL]


def file_of(dice, code, flags):
    """The file of a program: functions between the starts, one of which now and then is none, and a line each."""
    names, functions, lines = dice.sample(NAMES, len(NAMES)), [], []
    ends = [*code.starts[1:], len(code.words)]
    for start, end in zip(code.starts, ends):
        if start < end and dice.randrange(8):
            functions.append((names[len(functions)], CODE + 4 * start, 4 * (end - start)))
    for place in sorted(dice.sample(range(len(code.words)), dice.randrange(8))):
        lines.append((CODE + 4 * place, dice.randrange(2), place + 1))
    words = " ".join(f"{word:x}" for word in code.words)
    data = ([DATA, dice.randrange(9), DATA, 1], 4096)
    beside = [(DATA, " ".join(f"{word:x}" for word in data[0])), (DATA + 16, 4080)]
    end = [CODE + 4 * len(code.words)] * bool(lines)
    return programs.file_of(words, beside, functions, ["s.c", "/abs/t.c"], lines + end, flags)


def cache(dice):
    line, ways, sets = dice.choice([16, 32, 64]), dice.choice([1, 2, 4]), dice.choice([1, 2, 8, 64])
    return f"{sets * ways * line},{ways},{line}"


def run_options(dice, budget):
    options = [f"--budget={budget}", *(f"--{name}={cache(dice)}" for name in ("I1", "D1", "LL"))]
    options += ["--branch-sim=yes"] * dice.randrange(2) + ["--input=input"] * (dice.randrange(3) == 0)
    return options


def turns(dice):
    quantum = [f"--quantum={dice.choice([1, 2, 3, 7, 20, 500])}"] * (dice.randrange(4) > 0)
    return quantum + [f"--turns={dice.randrange(1 << 32)}"] * dice.randrange(2)


def spaced(name):
    return name.replace(" ", "~").replace("\t", "^")


def cuts(dice):
    kinds = dice.randrange(1, 8)
    options = [f"--dump-before={spaced(dice.choice(NAMES))}"] * (kinds & 1)
    options += [f"--dump-after={spaced(dice.choice(NAMES))}"] * (kinds >> 1 & 1)
    return options + [f"--dump-every={dice.choice([1, 2, 3, 10, 50, 400])}"] * (kinds >> 2 & 1)


def shown(dice):
    options = [f"--sort={dice.choice(['Ir', 'Dr', 'D1mw', 'ILmr'])}"] * dice.randrange(2)
    options += [f"--threshold={dice.randrange(101)}"] * dice.randrange(2)
    return options + [f"--tree={dice.choice(['none', 'caller', 'calling', 'both', 'both'])}"] + ["--auto=yes"] * dice.randrange(2)


class Writer:
    """Prints the lines of a script, and follows them as the model does, to know which parts there are."""

    def __init__(self):
        self.script = model.Script({})

    def say(self, line):
        print(line)
        with contextlib.redirect_stdout(io.StringIO()):
            self.script.follow(line)

    def file(self, name, content):
        self.say(f"bytes {name} {content.hex(' ')}")

    def command(self, *words):
        self.say(" ".join(["$", *words]))
        return list(self.script.parts)


def program_case(dice, writer, content, budget):
    options, first, other = run_options(dice, budget), turns(dice), turns(dice)
    cut, view, values = cuts(dice), shown(dice), ["--", "prog", *dice.choice([[], ["a"], ["-x", "a~word"]])]
    writer.file("prog", content)
    parts = writer.command("run", *options, *first, *values)
    for part in parts:
        writer.say("whole " + part)
        writer.say(f"keep {part} kept-{part}")
    writer.command("report", *options, *first, *view, *values)
    if parts:
        writer.command("annotate", *view, *("kept-" + part for part in parts))
    for part in parts:
        writer.say(f"drop kept-{part}")
    for part in writer.command("run", *options, *other, *values):
        writer.say(f"lines {part} fn=")
        writer.say(f"lines {part} calls=")
        writer.say(f"lines {part} summary:")
    writer.command("report", *options, *first, *cut, *view, *values)
    calls = len(writer.script.calls)
    writer.command("report", *options, *first, *cut, *view, "--dump-instr=yes", *values)
    writer.say(f"fail folder {1 + dice.randrange(calls)}")
    writer.command("report", *options, *first, *cut, *view, *values)
    writer.say(f"fail {dice.choice(['out', 'err'])} {1 + dice.randrange(2)}")
    writer.command("report", *options, *first, *cut, *view, *values)
    writer.say("drop prog")


NAMING = """fn=(1) f;fn=(1);fn=g;fn=(2) h;fn=(2);fl=a.c;fl=(1) b.h;fi=(1);fe=a.c;ob=(1) /a;ob=;# none;;desc: none;cmd: a b
positions: line;totals: 1;fn=(3);fi=(01);cob=/lib""".replace("\n", ";").split(";")
WRONG = "what;jump=1 1;events: Dw;1 18446744073709551616;-9 1;calls=1;cfn=;positions: instr;1 1 1 1 1;fn=(9)".split(";")
CALLED = ["cfn=f", "cfn=(1)", "cfn=(3) k", "cfn=g", "cfn=(2)", "cfi=(1)"]
EVENT_LISTS = ["events: Ir", "events: Ir", "events: Ir Dr", "events: Ir Dr Dw", "events: Dr"]


def costs(dice):
    numbers = [" " + str(dice.randrange(50) if dice.randrange(60) else 2**64 - 1) for _ in range(dice.randrange(3))]
    return dice.choice(["", "", "", "+", "-"]) + str(dice.randrange(4)) + "".join(numbers)


def profile(dice):
    """The lines of a profile, which may be wrong."""
    lines = [dice.choice(EVENT_LISTS)] * (dice.randrange(20) > 0) + ["fn=f"] * (dice.randrange(8) > 0)
    for _ in range(dice.randrange(24)):
        kind = dice.randrange(40)
        if kind < 12:
            lines.append(dice.choice(NAMING))
        elif kind < 28:
            lines.append(costs(dice))
        elif kind < 39:
            lines += [dice.choice(CALLED)] + [dice.choice(CALLED)] * (dice.randrange(3) == 0)
            lines.append(f"calls={dice.randrange(5)} {dice.randrange(9)}")
            lines += [costs(dice)] * (dice.randrange(40) > 0)
        else:
            lines.append(dice.choice(WRONG) if dice.randrange(3) == 0 else "")
    return [line + "\n" for line in lines]


def profile_case(dice, writer):
    one, two = profile(dice), profile(dice)
    options = dice.choice(["--tree=both", "--tree=calling", "--threshold=30"])
    writer.file("one", "".join(one).encode())
    writer.file("two", "".join(two).encode())
    writer.file("spaced", "".join(line.replace("\n", " \t\r\n") for line in one).encode())
    for names in ["one", "two"], ["two", "one"], ["one"], ["spaced"]:
        writer.command("annotate", options, *names)
    writer.say(f"fail folder {1 + dice.randrange(2)}")
    writer.command("annotate", options, "one", "two")
    for name in "one", "two", "spaced":
        writer.say("drop " + name)


def damaged(dice, content):
    """A file that is cut, or some of whose bytes are others."""
    content = bytearray(content)
    if dice.randrange(4) == 0:
        return bytes(content[: dice.randrange(len(content))])
    for _ in range(1 + dice.randrange(4)):
        within = len(content) if dice.randrange(3) == 0 else min(150, len(content))
        content[dice.randrange(within)] = dice.choice([0, 1, 0x7F, 0x80, 0xFF]) ^ dice.randrange(4)
    return bytes(content)


def case(seed, writer):
    dice = random.Random(seed)
    kind = dice.randrange(4)
    if kind == 0:
        profile_case(dice, writer)
    elif kind == 1:
        program_case(dice, writer, file_of(dice, Apart(dice), programs.READ_EXECUTE), 100000)
    else:
        content = file_of(dice, Chaos(dice), dice.choice([7, programs.READ_EXECUTE, programs.READ_EXECUTE]))
        content = damaged(dice, content) if dice.randrange(6) == 0 else content
        program_case(dice, writer, content, 1 + dice.randrange(1500))


def main(first, count):
    writer = Writer()
    print("scene commands")
    print("# Random programs and profiles (data/random_cases.py).")
    writer.say("text input " + "i" * 39)
    writer.say("text s.c one|two||~four|five")
    for seed in range(first, first + count):
        print(f"# Seed {seed}.")
        case(seed, writer)


if __name__ == "__main__":
    main(int(sys.argv[1]), int(sys.argv[2]))
