#!/usr/bin/env python3
"""bench/hostile_guests.py CGPROF [KIND..]: prints what guests and profiles cost that are made to make a step, a cut or
a report dear, each kind at three sizes. Of a guest that goes on for ever it is the nanoseconds of a step, from the
difference of two budgets, which may grow by 1.4 times from one size to the next. Of a whole run it is its seconds,
which may grow by 5.5 times where the size grows by four. Both are the processor's, medians of the rounds, in which the
sizes take turns; growth is the median of what it is in each round, and peak memory stands beside it. There are seven
rounds (the environment's ROUNDS says another number), fewer where they would take more than a minute. The last lines
name the kinds that miss a bar and which: those that are known to be slow, and others, which are a fault (status 1). A
run ends at a minute of the processor or at 8 GB. It takes a C compiler (cc)."""

import os
import statistics
import subprocess
import sys
import tempfile

HERE = os.path.dirname(os.path.abspath(__file__))
sys.path.append(os.path.join(HERE, "..", "tests"))
sys.dont_write_bytecode = True
import assembler
import programs
from assembler import Assembler

ROUNDS, LONGEST = int(os.environ.get("ROUNDS", 7)), 60
DATA, MAPPED = 0x4000000, 0x40000000
# how many instructions have a place of their own where their rows are remembered
REMEMBERED = 65536
STEP, WHOLE = 1.4, 5.5
# as many steps are timed as take so many seconds, up to this number
LONG_ENOUGH, FEWEST, MOST = 0.2, 4000, 1 << 22
# parts are written to memory where there is such a folder, since a disk would be timed too
SCRATCH = tempfile.TemporaryDirectory(dir="/dev/shm" if os.path.isdir("/dev/shm") else None)
KINDS = {}
# What grows by more than it may today.
KNOWN_SLOW = set()


class Run:
    """A run: its files, its words, and how many steps come before those that are timed, where it isn't timed whole."""

    def __init__(self, files, words, before=None):
        self.files, self.words, self.before = files, words, before


def kind(*sizes, most=STEP, last=None):
    """A kind at these sizes, each of which may take so many times what the one before takes, and the last so many times
    what the first takes."""

    def keep(function):
        KINDS[function.__name__.replace("_", "-")] = (function, sizes, most, last)
        return function

    return keep


def endless(guest, before, *options, more=(), lines=False):
    """A guest that goes on for ever, and is timed after so many steps."""
    return Run({"guest": guest.elf(more, lines)}, ["run", *options, "guest"], before)


@kind(8, 64, 256, last=1.5)
def tail_calls(size):
    """An interpreter whose handlers jump to the next by a table, without a call."""
    guest = Assembler()
    guest.function("main")
    guest.number("s0", DATA)
    guest.jump("h0")
    for handler in range(size):
        guest.function(f"h{handler}")
        guest.addi("a0", "a0", 1)
        guest.lw("t0", 4 * ((handler + 1) % size), "s0")
        guest.jalr("zero", "t0")
    table = programs.words([guest.places[f"h{handler}"] for handler in range(size)])
    return endless(guest, 1000, more=[(DATA, table, len(table), programs.READ_WRITE)])


@kind(64, 256, 1024)
def states(size):
    """States of a machine that jump to each other."""
    guest = Assembler()
    guest.function("main")
    guest.jump("s0")
    for state in range(size):
        guest.function(f"s{state}")
        guest.addi("a0", "a0", 1)
        guest.jump(f"s{(state + 1) % size}")
    return endless(guest, 4096)


def recurse(guest, depth):
    """Calls a function within itself so deep, with a stack, and goes on in what stands behind it: four steps a call."""
    guest.number("a0", depth)
    guest.call("deep")
    guest.exit()
    guest.function("deep")
    guest.addi("sp", "sp", -16)
    guest.addi("a0", "a0", -1)
    guest.beq("a0", "zero", "bottom")
    guest.call("deep")
    guest.ret()
    guest.place("bottom")


@kind(2500, 10000, 40000)
def coroutines(size):
    """Jumps on a stack that lies above the one on which so many calls are open."""
    guest = Assembler()
    guest.function("main")
    guest.number("t0", 0x7F810000)
    guest.move("s1", "sp")
    guest.move("sp", "t0")
    recurse(guest, size)
    guest.move("sp", "s1")
    guest.call("other")
    guest.exit()
    guest.function("other")
    guest.addi("a0", "a0", 1)
    guest.jump("other")
    return endless(guest, 4 * size + 100)


@kind(2500, 10000, 40000)
def longjmp(size):
    """Jumps back over four calls, below so many."""
    guest = Assembler()
    guest.function("main")
    recurse(guest, size)
    guest.address("s0", "set")
    guest.move("s1", "sp")
    guest.place("set")
    guest.call("c0")
    guest.exit()
    for level in range(4):
        guest.function(f"c{level}")
        guest.addi("sp", "sp", -16)
        if level < 3:
            guest.call(f"c{level + 1}")
        guest.move("sp", "s1")
        guest.jalr("zero", "s0")
    return endless(guest, 4 * size + 100)


@kind(1000, 4000, 16000)
def lines(size):
    """Lines whose rows have one place in a hash table, each of which is met again once its place was forgotten."""
    made = os.path.join(SCRATCH.name, "lines")
    subprocess.run([os.path.join(SCRATCH.name, "hostile"), "lines", str(size), made], check=True)
    guest, half = Assembler(), size // 2
    with open(made) as file:
        colliding = file.read().split()
    for number, line in enumerate(colliding):
        if number == half:
            guest.jump("second")
            guest.words += [0] * (REMEMBERED - half - 1)
            guest.place("second")
        guest.line(int(line))
        if number < size - 1:
            guest.addi("a0", "a0", 1)
    guest.jump(programs.CODE)
    return endless(guest, 4 * size, lines=True)


def waiting(guest, count):
    """Makes so many threads, each of which waits for one word again and again, and lets them begin."""
    guest.function("main")
    guest.number("s0", DATA)
    guest.number("s1", count)
    guest.place("thread")
    guest.number("a0", assembler.THREAD_FLAGS)
    guest.system(assembler.CLONE, None, 0, 0, 0, 0)
    guest.beq("a0", "zero", "wait")
    guest.addi("s1", "s1", -1)
    guest.bne("s1", "zero", "thread")
    guest.system(assembler.YIELD)
    guest.jump("loop")
    guest.place("wait")
    guest.move("a0", "s0")
    guest.system(assembler.FUTEX, None, assembler.WAIT, 0, 0)
    guest.jump("wait")
    guest.place("loop")


DATA_PAGE = (DATA, b"", 4096, programs.READ_WRITE)


@kind(63, 255, 1023)
def wakes(size):
    """A wake of so many threads, each of which waits again."""
    guest = Assembler()
    waiting(guest, size)
    guest.move("a0", "s0")
    guest.system(assembler.FUTEX, None, assembler.WAKE, 2047)
    guest.system(assembler.YIELD)
    guest.jump("loop")
    return endless(guest, 40 * size + 100, more=[DATA_PAGE])


@kind(63, 255, 1023, most=WHOLE)
def requeues(size):
    """A move of so many waiters to another word, and back."""
    guest = Assembler()
    waiting(guest, size)
    for first, second in ((0, 64), (64, 0)):
        guest.addi("a0", "s0", first)
        guest.addi("a4", "s0", second)
        guest.system(assembler.FUTEX, None, assembler.REQUEUE, 0, 2047)
    guest.jump("loop")
    return endless(guest, 40 * size + 100, more=[DATA_PAGE])


@kind(3840, 15360, 61440)
def maps(size):
    """A mapping of two pages, where of so many pages every other one is free."""
    guest = Assembler()
    guest.function("main")
    guest.number("s0", MAPPED)
    guest.number("s1", MAPPED + 4096 * size)
    guest.number("s2", 8192)
    guest.move("a1", "s1")
    guest.sub("a1", "s1", "s0")
    guest.system(assembler.MMAP, 0, None, 3, 0x22, -1, 0)
    guest.place("hole")
    guest.move("a0", "s0")
    guest.number("a1", 4096)
    guest.system(assembler.MUNMAP)
    guest.add("s0", "s0", "s2")
    guest.bne("s0", "s1", "hole")
    guest.place("loop")
    guest.move("a1", "s2")
    guest.system(assembler.MMAP, 0, None, 3, 0x22, -1, 0)
    guest.move("a1", "s2")
    guest.system(assembler.MUNMAP)
    guest.jump("loop")
    return endless(guest, 4 * size + 100)


@kind(4000, 16000, 64000)
def cuts_rows(size):
    """A cut each thousand steps, after so many rows had a cost once."""
    guest = Assembler()
    for number in range(size):
        guest.line(number + 1)
        guest.addi("a0", "a0", 1)
    guest.place("loop")
    guest.addi("a0", "a0", 1)
    guest.jump("loop")
    return endless(guest, size + 1000, "--dump-every=1000", lines=True)


@kind(4095, 16383, 65534, most=WHOLE)
def cuts_threads(size):
    """So many threads, one after the other, and a cut for each sixteen of them."""
    guest = Assembler()
    guest.function("main")
    guest.number("s0", size)
    guest.place("next")
    guest.number("a0", assembler.THREAD_FLAGS)
    guest.system(assembler.CLONE, None, 0, 0, 0, 0)
    guest.beq("a0", "zero", "child")
    guest.system(assembler.YIELD)
    guest.addi("s0", "s0", -1)
    guest.bne("s0", "zero", "next")
    guest.exit()
    guest.place("child")
    guest.system(assembler.EXIT, 0)
    return Run({"guest": guest.elf()}, ["run", "--dump-every=272", "guest"])


@kind(10000, 40000, 160000, most=WHOLE)
def waits(size):
    """A thread that waits at so many words in turn, each of which another wakes."""
    guest = Assembler()
    guest.function("main")
    guest.number("s0", DATA)
    guest.number("s1", DATA + 4 * size)
    guest.number("a0", assembler.THREAD_FLAGS)
    guest.system(assembler.CLONE, None, 0, 0, 0, 0)
    for way in ("child", "main"):
        call = (assembler.WAIT, 0, 0) if way == "child" else (assembler.WAKE, 1)
        guest.bne("a0", "zero", "woken") if way == "child" else guest.place("woken")
        guest.place(way + " next")
        if way == "main":
            guest.system(assembler.YIELD)
        guest.move("a0", "s0")
        guest.system(assembler.FUTEX, None, *call)
        guest.addi("s0", "s0", 4)
        guest.bne("s0", "s1", way + " next")
        guest.system(assembler.EXIT, 0)
    words = (DATA, b"", 4 * size, programs.READ_WRITE)
    return Run({"guest": guest.elf([words])}, ["run", "--waits=yes", "guest"])


@kind(128, 512, 2048, most=WHOLE)
def joined(size):
    """So many profiles, each of sixty functions of its own."""
    files = {}
    for number in range(size):
        lines = "".join(f"fn=f{number}_{name}\n1 1\n" for name in range(60))
        files[f"p{number}"] = f"events: Ir\n{lines}".encode()
    return Run(files, ["annotate", *files])


class TooMuch(Exception):
    """A run that was ended, or didn't end as it must."""


class Timed:
    """A kind at a size: what it takes in each round."""

    def __init__(self, program, function, size):
        self.program, self.size, self.run = program, size, function(size)
        self.path, self.took, self.peak, self.all = tempfile.mkdtemp(dir=SCRATCH.name), [], 0, 0
        self.steps, self.whole = FEWEST, self.run.before is None
        for name, content in self.run.files.items():
            with open(os.path.join(self.path, name), "wb") as file:
                file.write(content)

    def seconds(self, *options):
        """The processor's seconds of a run."""
        command, *rest = self.run.words
        words = [os.path.join(SCRATCH.name, "spent"), self.program, command, *options, *rest]
        done = subprocess.run(words, cwd=self.path, stdin=subprocess.DEVNULL, capture_output=True)
        micros, kilobytes = map(int, done.stdout.split())
        self.peak, self.all = max(self.peak, kilobytes / 1000), self.all + micros / 1e6
        if done.returncode != (0 if self.whole else 13):
            raise TooMuch(f"status {done.returncode} {done.stderr.decode().strip()}".strip())
        return micros / 1e6

    def after(self, steps):
        return self.seconds(f"--budget={self.run.before + steps}")

    def once_more(self):
        """A round: seconds of a whole run, or nanoseconds of a step."""
        if self.whole:
            return self.took.append(self.seconds())
        before, behind = self.after(0), self.after(self.steps)
        while not self.took and behind - before < LONG_ENOUGH and self.steps < MOST:
            self.steps *= 4
            behind = self.after(self.steps)
        self.took.append((behind - before) / self.steps * 1e9)

    def told(self, growth):
        took = statistics.median(self.took)
        figure = f"{took:10.3f} s " if self.whole else f"{took:10.1f} ns"
        return f"{self.size:6}: {figure} {self.peak:6.0f} MB" + (f", {growth:.1f} times" if growth else "")


def growth(before, behind):
    return statistics.median(now / then for then, now in zip(before.took, behind.took))


def rounds(name, timed, missed):
    """The sizes that end, each timed in turn."""
    for _ in range(ROUNDS):
        for index, one in enumerate(timed):
            try:
                one.once_more()
            except TooMuch as error:
                print(f"{name:14} {one.size:6}: too much: {error}")
                missed.append(f"{one.size} too much")
                timed = timed[:index]
                break
        if sum(one.all for one in timed) > LONGEST:
            break
    return timed


def measure(name, program):
    """Prints what a kind takes at each size, and gives what it missed."""
    function, sizes, most, last = KINDS[name]
    missed = []
    timed = rounds(name, [Timed(program, function, size) for size in sizes], missed)
    for before, one in zip([None, *timed], timed):
        times = growth(before, one) if before else None
        if times and times > most:
            missed.append(f"{one.size} {times:.1f} times")
        print(f"{name:14} {one.told(times)}", flush=True)
    if last and timed and growth(timed[0], timed[-1]) > last:
        missed.append(f"{timed[-1].size} {growth(timed[0], timed[-1]):.1f} times {timed[0].size}")
    return missed


def main():
    program, *names = sys.argv[1:]
    for name in ("hostile", "spent"):
        out = os.path.join(SCRATCH.name, name)
        subprocess.run(["cc", "-O2", "-o", out, os.path.join(HERE, f"{name}.c")], check=True)
    missed = {name: measure(name, os.path.realpath(program)) for name in names or KINDS}
    slow = {name: f"{name} ({', '.join(bars)})" for name, bars in missed.items() if bars}
    known = [told for name, told in slow.items() if name in KNOWN_SLOW]
    others = [told for name, told in slow.items() if name not in KNOWN_SLOW]
    print("guests known to be slow:", "; ".join(known) or "none")
    print("guests known to be slow that aren't:", " ".join(KNOWN_SLOW & missed.keys() - slow.keys()) or "none")
    print("guests not known to be slow:", "; ".join(others) or "none")
    sys.exit(len(others) > 0)


main()
