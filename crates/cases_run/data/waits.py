#!/usr/bin/env python3
"""Writes the part of the script on waiting: `python3 waits.py` prints its lines. A program is a list of threads, and a
thread a list of what it does. The first thread makes the others, in their order, before it does anything else."""

import random

CODE, WORDS = 0x10000, 0x20000


def immediate(to, source, number):
    return (number & 0xFFF) << 20 | source << 15 | to << 7 | 0x13


def upper(to, number):
    return (number & 0xFFFFF000) | to << 7 | 0x37


def jump(offset):
    return (offset >> 20 & 1) << 31 | (offset >> 1 & 0x3FF) << 21 | (offset >> 11 & 1) << 20 | (offset >> 12 & 0xFF) << 12 | 0x6F


SKIP_UNLESS_ZERO, CALL, NOTHING = 0x00051463, 0x00000073, 0x00000013


def call(number):
    return [immediate(17, 0, number), CALL]


def address(to, word):
    return [upper(to, WORDS), immediate(to, to, 4 * word)]


def futex(word, operation, count, moved=0):
    given = [immediate(11, 0, operation), immediate(12, 0, count), immediate(13, 0, moved)]
    return address(10, word) + given + call(98)


ACTS = {
    "steps": lambda count: [NOTHING] * count,
    "wait": lambda word: futex(word, 0, 0),
    "wake": lambda word, count: futex(word, 1, count),
    "move": lambda word, count, other: address(14, other) + futex(word, 3, 0, count),
    "wake_and_move": lambda word, woken, count, other: address(14, other) + futex(word, 3, woken, count),
    "yield": lambda: call(124),
}


def body(acts):
    code = [word for name, *numbers in acts for word in ACTS[name](*numbers)]
    return code + [immediate(10, 0, 0)] + call(93)


def program(threads):
    first, others = body(threads[0]), [body(acts) for acts in threads[1:]]
    code, start = [], 7 * len(others) + len(first)
    for other in others:
        code += [upper(10, 0x11000), immediate(10, 10, -0x100), immediate(11, 0, 0)] + call(220) + [SKIP_UNLESS_ZERO]
        code.append(jump(4 * (start - len(code))))
        start += len(other)
    return code + first + [word for other in others for word in other]


def show(name, threads, *options):
    print("code", f"{CODE:x}", " ".join(f"{word:08x}" for word in program(threads)))
    print("room", f"{WORDS:x}", "100")
    print("program", name)
    for given in options or ("",):
        print("$", " ".join(["run", "--waits=yes", *given.split(), name]))
        print("whole callgrind.out.waits")


WAITER = [("wait", 0)]

print("\n# What waiting costs. Nobody waits; nobody wakes; and the step that wakes counts, and none behind it.")
show("none_wait", [[("steps", 3)], [("wake", 0, 1)]])
show("none_wakes", [WAITER, [("steps", 5)]])
show("is_woken", [WAITER, [("wake", 0, 1), ("steps", 100)]], "", "--branch-sim=yes", "--quantum=3", "--turns=5")

print("\n# A waiter that is moved, and woken at the other word: the wait goes on, at its first word. A wake at the first word")
print("# finds nobody. One that is moved twice, and back; and one that is moved and never woken.")
show("is_moved", [WAITER, [("move", 0, 1, 1)], [("wake", 1, 1)]], "", "--quantum=1")
show("is_moved_away", [WAITER, [("move", 0, 1, 1), ("wake", 0, 1), ("steps", 4)], [("wake", 1, 1)]])
show("is_moved_back", [WAITER, [("move", 0, 1, 1), ("move", 1, 1, 2), ("move", 2, 1, 0), ("wake", 0, 1)]])
show("is_moved_and_left", [WAITER, [("move", 0, 1, 1), ("wake", 0, 1)]])

print("\n# Two are woken and two more are moved by one call; and a waiter is moved to its own word, behind another.")
show("some_are_moved", [[("yield",), ("wake_and_move", 0, 2, 2, 1), ("wake", 1, 1)], WAITER, WAITER, WAITER, WAITER, WAITER])
show("is_moved_behind", [[("yield",), ("move", 0, 1, 0), ("wake", 0, 1)], WAITER, WAITER])

print("\n# Two waits of one thread at one word; an open one beside one that was ended; and one wait at each of two words.")
show("waits_twice", [[("wait", 0), ("wait", 0)], [("wake", 0, 1), ("yield",), ("steps", 4), ("wake", 0, 1)]])
show("waits_on", [[("wait", 0), ("wait", 0)], [("wake", 0, 1), ("yield",), ("steps", 4)]])
show("waits_at_two", [[("wait", 1), ("wait", 0)], [("wake", 1, 1), ("yield",), ("wake", 0, 1)]])

print("\n# The third thread wakes it first, and then the second: wakers come by number, and rows by thread and then word.")
show("wakers", [[("wait", 1), ("wait", 1)], [("wait", 0), ("wake", 1, 1)], [("wake", 1, 1), ("wake", 0, 1)]])

print("\n# Sixteen threads wait, one after another, and are woken by one step.")
show("all_wake", [[("yield",), ("wake", 0, 16)]] + [WAITER] * 16)

print("\n# Random programs.")
dice = random.Random(45)


def act():
    kind = dice.randrange(8)
    if kind < 2:
        return "wait", dice.randrange(3)
    if kind < 4:
        return "wake", dice.randrange(3), dice.randrange(3)
    if kind == 4:
        return "wake_and_move", dice.randrange(3), dice.randrange(2), dice.randrange(3), dice.randrange(3)
    return ("yield",) if kind == 5 else ("steps", dice.randrange(9))


for number in range(24):
    threads = [[act() for _ in range(dice.randrange(12))] for _ in range(dice.randrange(1, 7))]
    options = [f"--quantum={dice.randrange(1, 20)}"] + ["--turns=7"] * dice.randrange(2) + ["--branch-sim=yes"] * dice.randrange(2)
    show(f"waits_{number}", threads, " ".join(options))
