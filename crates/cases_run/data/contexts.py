"""Prints the second scene of commands in the script of `cases_run`, runs by calling context and by address: programs by
their words, and how each is run. Which parts are looked at behind each run is said in the script alone."""

import random

SP, RA, A0, A1, A2, A3, A4, A7, S0, S1 = 2, 1, 10, 11, 12, 13, 14, 17, 8, 9


def addi(rd, rs, n):
    return (n & 0xFFF) << 20 | rs << 15 | rd << 7 | 0x13


def lui(rd, n):
    return n << 12 | rd << 7 | 0x37


def sw(rs, n, base):
    return (n >> 5 & 0x7F) << 25 | rs << 20 | base << 15 | 2 << 12 | (n & 31) << 7 | 0x23


def lw(rd, n, base):
    return (n & 0xFFF) << 20 | base << 15 | 2 << 12 | rd << 7 | 0x03


def jalr(rd, rs):
    return rs << 15 | rd << 7 | 0x67


def jal(rd, n):
    return (n >> 20 & 1) << 31 | (n >> 1 & 0x3FF) << 21 | (n >> 11 & 1) << 20 | (n >> 12 & 0xFF) << 12 | rd << 7 | 0x6F


def branch(kind, a, b, n):
    low = (n >> 1 & 15) << 8 | (n >> 11 & 1) << 7
    return (n >> 12 & 1) << 31 | (n >> 5 & 0x3F) << 25 | b << 20 | a << 15 | kind << 12 | low | 0x63


ECALL = 0x73


def program(name, functions, room=None):
    """Functions are names with items: words, ("call", NAME), ("tail", NAME) or ("skip", KIND, A, B, COUNT)."""
    starts, at = {}, 0x10000
    for function, items in functions:
        starts[function] = at
        at += 4 * len(items)
    words, at = [], 0x10000
    for _, items in functions:
        for item in items:
            if isinstance(item, tuple):
                kind, *rest = item
                if kind == "skip":
                    item = branch(rest[0], rest[1], rest[2], 4 * rest[3])
                else:
                    item = jal(RA if kind == "call" else 0, starts[rest[0]] - at)
            words.append(f"{item:08x}")
            at += 4
    print("code 10000 " + " ".join(words))
    for function, items in functions:
        print(f"function {function} {starts[function]:x} {4 * len(items):x}")
    if room:
        print("room " + room)
    print("program " + name)


EXIT = [addi(A7, 0, 93), addi(A0, 0, 0), ECALL]
RET = [jalr(0, RA)]


def framed(inside, last=RET):
    front = [addi(SP, SP, -16), sw(RA, 12, SP), sw(S0, 8, SP)]
    return front + inside + [lw(S0, 8, SP), lw(RA, 12, SP), addi(SP, SP, 16)] + last


def descending(*callees, last=RET):
    """Calls each with one less, unless that is below 0."""
    calls = []
    for callee in callees:
        calls += [addi(A0, S0, 0), ("call", callee)]
    return framed([addi(S0, A0, -1), ("skip", 4, S0, 0, len(calls) + 1)] + calls, last)


def run(name, *jobs):
    for callers, every, quantum in jobs:
        words = ["--dump-instr=yes" if callers == "-" else f"--separate-callers={callers}"]
        words += [f"--dump-every={every}"] * (every != "-") + [f"--quantum={quantum}"] * (quantum != 10000)
        print("$ run", *words, name)


print("# Two calls of f.")
print("code 10000 014000ef 010000ef 05d00893 00000513 00000073 00150513 00008067")
print("function main 10000 14\nfunction f 10014 8\nprogram p2")
run("p2", (1, "-", 10000), (16, "-", 10000))
print("# A cut after each two steps, also inside of a call.")
run("p2", (1, 2, 10000))
print("# Recursion, four activations.")
recursion = "00400513 010000ef 05d00893 00000513 00000073 ff010113 00112623 fff50513 00050463 ff1ff0ef 00c12083 01010113"
print(f"code 10000 {recursion} 00008067")
print("function main 10000 14\nfunction f 10014 20\nprogram recursion")
run("recursion", (1, "-", 10000), (2, "-", 10000), (3, "-", 10000), (16, "-", 10000), (2, 7, 10000))
print("# Two functions that call each other.")
program("mutual", [("main", [addi(A0, 0, 5), ("call", "even")] + EXIT), ("even", descending("odd")), ("odd", descending("even"))])
run("mutual", (1, "-", 10000), (2, "-", 10000), (3, "-", 10000), (16, "-", 10000), (3, 20, 10000))
print("# Recursion that is deeper than the longest context.")
program("deep", [("main", [addi(A0, 0, 20), ("call", "even")] + EXIT), ("even", descending("odd")), ("odd", descending("even"))])
run("deep", (16, "-", 10000), (16, 100, 10000))
print("# A tail jump to a function, which returns to where the first was called.")
tails = [
    ("main", [addi(A0, 0, 2), ("call", "f"), addi(A0, 0, 1), ("call", "g")] + EXIT),
    ("f", descending("f", last=[("tail", "g")])),
    ("g", [addi(A1, A1, 1), ("tail", "h")]),
    ("h", [addi(A1, A1, 1)] + RET),
]
program("tails", tails)
run("tails", (1, "-", 10000), (2, "-", 10000), (3, "-", 10000), (16, "-", 10000), (2, 5, 10000))
print("# Contexts that print alike: the first function, and two others.")
program("alike", [("f'g", [("call", "g")] + EXIT), ("g", framed([("call", "f")])), ("f", [addi(A1, A1, 1)] + RET)])
run("alike", (1, "-", 10000), (2, "-", 10000))
print("# Two threads, whose turns are short, with cuts inside of calls.")
clone = [lui(A0, 0x7D1), addi(A0, A0, -256), lui(A1, 0x28), lui(A2, 0x21), addi(A3, 0, 0), addi(A4, A2, 0), addi(A7, 0, 220)]
main = clone + [ECALL, ("skip", 1, A0, 0, 2), ("tail", "child"), addi(A0, 0, 3), ("call", "even")] + EXIT
program(
    "threads",
    [
        ("main", main),
        ("child", [addi(A0, 0, 4), ("call", "odd")] + EXIT),
        ("even", descending("odd")),
        ("odd", descending("even", "leaf")),
        ("leaf", [addi(A1, A1, 1)] + RET),
    ],
    "20000 10000",
)
run("threads", (1, "-", 7), (2, 50, 7), (3, "-", 3), (16, 31, 5))


def random_program(name):
    """Random calls and tail jumps."""
    names = [f"f{k}" for k in range(random.randint(2, 6))]
    functions = [("main", [addi(A0, 0, random.randint(2, 4)), ("call", "f0")] + EXIT)]
    for function in names:
        callees = random.choices(names, k=random.randint(1, 2))
        functions.append((function, descending(*callees, last=random.choice([RET, RET, [("tail", "leaf")]]))))
    functions.append(("leaf", [addi(A1, A1, 1)] + RET))
    program(name, functions)


print("# Programs of random calls and tail jumps.")
random.seed(43)
for number in range(12):
    random_program(f"random_{number}")
    run(f"random_{number}", (random.choice([1, 2, 3, 16]), random.choice(["-", 17, 40]), 10000))
print("# By address: the two calls of f, and the sums of the parts of the others.")
run("p2", ("-", "-", 10000), ("-", 2, 10000))
for name, every, quantum in (
    ("recursion", 7, 10000),
    ("mutual", "-", 10000),
    ("deep", 100, 10000),
    ("tails", 5, 10000),
    ("threads", "-", 7),
    ("threads", 31, 5),
):
    run(name, ("-", every, quantum))
for number in range(12):
    run(f"random_{number}", ("-", random.choice(["-", 17, 40]), 10000))
print("# The sums of the parts of more such programs, each made from a seed.")
for seed in range(25):
    random.seed(seed)
    random_program(f"seed_{seed}")
    for callers in 1, 2, 3, 16, "-":
        run(f"seed_{seed}", (callers, random.choice(["-", 7, 17, 40]), 10000))
