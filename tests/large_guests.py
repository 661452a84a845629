"""Cases of tests/large.py: guests that are large in one thing."""

import assembler
import programs
from assembler import Assembler
from large_runs import Part, case, same

FRAMES, LIVE_THREADS, MADE_THREADS, CUTS = 4194304, 1024, 65535, 4095
TABLE, HEAP = 0x4000000, 0x40000000


def both_ways(count):
    """A guest in which so many functions each call so many others once: a leaf in each of these contexts."""
    guest = Assembler()
    guest.function("main")
    for number in range(count):
        guest.call(f"a{number}")
    guest.exit()
    for number in range(count):
        guest.function(f"a{number}")
        guest.move("s1", "ra")
        for leaf in range(count):
            guest.call(f"b{leaf}")
        guest.jalr("zero", "s1")
    for leaf in range(count):
        guest.function(f"b{leaf}")
        guest.ret()
    return guest.elf()


def tree(levels):
    """A guest of two functions, each of which calls both, so many levels deep."""
    guest = Assembler()
    guest.function("main")
    for way in "LR":
        guest.addi("a0", "zero", levels - 1)
        guest.call(way)
    guest.exit()
    for way in "LR":
        guest.function(way)
        guest.addi("sp", "sp", -16)
        guest.sw("ra", 12, "sp")
        guest.sw("s0", 8, "sp")
        guest.addi("s0", "a0", -1)
        guest.beq("a0", "zero", way + "end")
        for called in "LR":
            guest.move("a0", "s0")
            guest.call(called)
        guest.place(way + "end")
        guest.lw("s0", 8, "sp")
        guest.lw("ra", 12, "sp")
        guest.addi("sp", "sp", 16)
        guest.ret()
    return guest.elf()


@case()
def contexts(command):
    """70,225 functions with one caller each, and 131,070 ways of at most 16 callers."""
    count = 265
    command.run("run --separate-callers=1 guest", guest=both_ways(count))
    part = command.part()
    wanted = {f"b{leaf}'a{number}": (1, 0, 0) for number in range(count) for leaf in range(count)}
    wanted |= {f"a{number}'main": (count + 2, 0, 0) for number in range(count)} | {"main": (count + 3, 0, 0)}
    same("contexts of one caller", part.functions(), wanted)
    arcs = {(f"a{number}'main", f"b{leaf}'a{number}"): (1, 1, 0, 0) for number in range(count) for leaf in range(count)}
    arcs |= {("main", f"a{number}'main"): (1, 2 * count + 2, 0, 0) for number in range(count)}
    same("calls between them", dict(part.arcs), arcs)
    levels, ways, wanted = 16, ["main"], {"main": (7, 0, 0)}
    command.run("run --separate-callers=16 guest", guest=tree(levels))
    for level in range(levels):
        ways = [f"{way}'{above}" for above in ways for way in "LR"]
        wanted |= {way: (9 if level == levels - 1 else 13, 2, 2) for way in ways}
    same("contexts of 16 callers", command.part().functions(), wanted)
    return f"{count * count + count + 1} contexts of one caller, {len(wanted)} of 16"


def block(length):
    """Functions of 64 instructions, the last of which is a return, so many instructions in all."""
    guest = Assembler(TABLE)
    for number in range(length // 64):
        guest.function(f"f{number}")
        for _ in range(63):
            guest.addi("a0", "a0", 1)
        guest.ret()
    return guest


def called_in_turn(addresses):
    """A guest that calls what stands at these addresses, one after the other, by a table."""
    guest = Assembler()
    guest.function("main")
    guest.number("s0", HEAP // 2)
    guest.number("s1", HEAP // 2 + 4 * len(addresses))
    guest.place("next")
    guest.lw("t0", 0, "s0")
    guest.jalr("ra", "t0")
    guest.addi("s0", "s0", 4)
    guest.bne("s0", "s1", "next")
    guest.exit()
    return guest, (HEAP // 2, programs.words(addresses), 4 * len(addresses), programs.READ_EXECUTE)


def loop_costs(count):
    """What the loop over such a table costs, by address."""
    guest, _ = called_in_turn(range(count))
    once = {guest.base + 4 * index: (1, 0, 0) for index in (0, 1, 2, 3, 8, 9, 10)}
    turns = {guest.places["next"] + 4 * index: (count, count if index == 0 else 0, 0) for index in range(4)}
    return once | turns


@case(2)
def code(command):
    """2^20 instructions in 16,384 functions, and in one, run once: by functions and by address."""
    length = 2**20
    for names in (True, False):
        more = block(length)
        guest, table = called_in_turn([start for _, start, _ in more.functions()])
        functions = guest.functions() + (more.functions() if names else [("all", TABLE, 4 * length)])
        file = programs.elf(guest.code(), functions, [(TABLE, programs.words(more.code()), 4 * length, 5), table])
        loops = loop_costs(length // 64)
        command.run("run guest", guest=file)
        own = {name: (64, 0, 0) for name, _, _ in more.functions()} if names else {"all": (length, 0, 0)}
        main = tuple(map(sum, zip(*loops.values())))
        same("functions", command.part().functions(), own | {"main": main})
        command.run("run --dump-instr=yes guest", guest=file)
        part = command.part()
        rows = {address: costs for (_, address), costs in part.rows.items()}
        same("addresses", rows, loops | {TABLE + 4 * index: (1, 0, 0) for index in range(length)})
        calls = {("main", name): (1, 64, 0, 0) for name, _, _ in more.functions()}
        same("calls", dict(part.arcs), calls if names else {("main", "all"): (length // 64, length, 0, 0)})
    return f"{length} instructions"


@case(2)
def code_lines(command):
    """2^20 lines of one instruction each, run once: plain, and by up to 16 callers."""
    length = 2**20
    more = block(length)
    guest, table = called_in_turn([start for _, start, _ in more.functions()])
    for number in range(length):
        more.rows.append((TABLE + 4 * number, number + 1))
    lines = [(".debug_line", assembler.line_table(more.rows, more.here()))]
    segments = [(TABLE, programs.words(more.code()), 4 * length, programs.READ_EXECUTE), table]
    file = programs.elf(guest.code(), guest.functions() + more.functions(), segments, lines)
    loops = tuple(map(sum, zip(*loop_costs(length // 64).values())))
    for option in ([], ["--separate-callers=16"]):
        command.run(["run", *option, "guest"], guest=file)
        behind = "'main" if option else ""
        wanted = {(f"f{number // 64}{behind}", number + 1): (1, 0, 0) for number in range(length)}
        same("lines", dict(command.part().rows), wanted | {("main", 0): loops})
    return f"{length} lines"


@case(2)
def symbols(command):
    """2^20 functions of one instruction, of which each eighth is called."""
    count = 2**20
    numbers = range(7, count, 8)
    guest, table = called_in_turn([TABLE + 4 * number for number in numbers])
    functions = [(f"f{number}", TABLE + 4 * number, 4) for number in range(count)]
    body = programs.words([0x8067]) * count
    file = programs.elf(guest.code(), guest.functions() + functions, [(TABLE, body, len(body), 5), table])
    command.run("run guest", guest=file)
    part, main = command.part(), tuple(map(sum, zip(*loop_costs(len(numbers)).values())))
    same("functions", part.functions(), {f"f{number}": (1, 0, 0) for number in numbers} | {"main": main})
    same("calls", dict(part.arcs), {("main", f"f{number}"): (1, 1, 0, 0) for number in numbers})
    return f"{count} symbols, {len(numbers)} functions called"


def recursion(depth):
    """A guest that calls one function within itself, so deep and without a stack, and returns from all."""
    guest = Assembler()
    guest.function("main")
    guest.number("a0", depth)
    guest.number("a1", depth - 1)
    guest.address("s0", "done")
    guest.call("f")
    guest.place("done")
    guest.exit()
    guest.function("f")
    guest.addi("a0", "a0", -1)
    guest.beq("a0", "zero", "back")
    guest.call("f")
    guest.place("back")
    guest.beq("a1", "zero", "out")
    guest.addi("a1", "a1", -1)
    guest.ret()
    guest.place("out")
    guest.jalr("zero", "s0")
    return guest.elf()


def frames_with(command, option):
    """The most open calls, and one fewer."""
    first = lambda name: name.partition("'")[0]
    for depth, status in ((FRAMES - 1, 0), (FRAMES, 14)):
        message = b"" if status == 0 else b"%d frames are live" % FRAMES
        command.run(["run", *option, "guest"], status, message, guest=recursion(depth))
        part = command.part()
        down, beneath = 3 * (depth - 1), depth - 1
        within = 3 * beneath * (beneath - 1) // 2
        all_in_f, main = down, 7
        if status == 0:
            all_in_f, main = down + 2 + 3 * beneath + 2, 10
            within += 2 * beneath + 3 * depth * beneath // 2
        same("functions", part.functions(first), {"main": (main, 0, 0), "f": (all_in_f, 0, 0)})
        same("calls", part.calls(first), {("main", "f"): (1, all_in_f, 0, 0), ("f", "f"): (beneath, within, 0, 0)})
    return f"{FRAMES - 1} and {FRAMES} open calls"


@case(2)
def frames(command):
    return frames_with(command, [])


@case(3)
def frames_branches(command):
    return frames_with(command, ["--branch-sim=yes"])


@case(3)
def frames_waits(command):
    return frames_with(command, ["--waits=yes"])


@case(4)
def frames_callers(command):
    return frames_with(command, ["--separate-callers=16"])


@case(4)
def frames_addresses(command):
    return frames_with(command, ["--dump-instr=yes"])


def crowd():
    """A guest that makes threads up to the most, each of which waits for one word, and then wakes them."""
    guest = Assembler()
    guest.function("main")
    guest.number("s0", TABLE)
    guest.addi("s1", "zero", 0)
    guest.place("next")
    guest.number("a0", assembler.THREAD_FLAGS)
    guest.system(assembler.CLONE, None, 0, 0, 0, 0)
    guest.beq("a0", "zero", "child")
    guest.blt("a0", "zero", "full")
    guest.addi("s1", "s1", 1)
    guest.jump("next")
    guest.place("full")
    guest.addi("a0", "a0", -assembler.AGAIN)
    guest.bne("a0", "zero", "bad")
    guest.system(assembler.YIELD)
    guest.move("a0", "s0")
    guest.system(assembler.FUTEX, None, assembler.WAKE, 2047)
    guest.bne("a0", "s1", "bad")
    guest.system(assembler.EXIT, 0)
    guest.function("child")
    guest.move("a0", "s0")
    guest.system(assembler.FUTEX, None, assembler.WAIT, 0, 0)
    guest.system(assembler.EXIT, 0)
    guest.place("bad")
    guest.exit(1)
    return guest


CROWD_OPTIONS = ("", "--waits=yes", "--dump-instr=yes", "--separate-callers=16")


@case()
def threads(command):
    """1,024 threads at once: plain, with waits, by address and by callers."""
    guest, most = crowd(), LIVE_THREADS - 1
    file = guest.elf([(TABLE, b"", 4096, programs.READ_WRITE)])
    in_main, in_child = (3 + 12 * most + 10 + 4 + 5 + 1 + 3, 0, 0), (9, 0, 0)
    for option in CROWD_OPTIONS:
        command.run(["run", "--quantum=100000", *option.split(), "guest"], guest=file)
        first = lambda name: name.partition("'")[0]
        same("main", command.part().functions(first), {"main": in_main})
        for thread in range(2, LIVE_THREADS + 1):
            same(f"thread {thread}", command.part(1, thread).functions(first), {"main": (1, 0, 0), "child": in_child})
        assert len(command.parts("callgrind.out.1-")) == LIVE_THREADS, "not a part for each thread"
        if option == "--waits=yes":
            same("waits", command.read("callgrind.out.waits").decode().splitlines()[3:], crowd_waits(most))
        if option == "--dump-instr=yes":
            child = {guest.places["child"] + 4 * index: (1, 0, 0) for index in range(9)}
            child[guest.places["next"] + 4 * 8] = (1, 0, 0)
            rows = {address: costs for (_, address), costs in command.part(1, LIVE_THREADS).rows.items()}
            same("addresses of the last thread", rows, child)
    return f"{LIVE_THREADS} threads, {len(CROWD_OPTIONS)} ways"


def crowd_waits(most):
    """Each waits until those behind it have made their seven steps, and five more wake it."""
    lines, none = [], " 0" * 8
    costs = [7 * (most - number) + 5 for number in range(1, most + 1)]
    for thread, cost in enumerate(costs, 2):
        lines += [f"thread {thread} word 0x{TABLE:08x} waits 1 open 0 cost {cost}{none}", "  woken by 1 times 1"]
    return lines + [f"total {sum(costs)}{none}"]


def one_after_the_other():
    """A guest that makes threads that end at once, as many as there may be."""
    guest = Assembler()
    guest.function("main")
    guest.addi("s1", "zero", 1)
    guest.place("next")
    guest.number("a0", assembler.THREAD_FLAGS)
    guest.system(assembler.CLONE, None, 0, 0, 0, 0)
    guest.beq("a0", "zero", "child")
    guest.blt("a0", "zero", "full")
    guest.addi("s1", "s1", 1)
    guest.system(assembler.YIELD)
    guest.jump("next")
    guest.place("full")
    guest.addi("a0", "a0", -assembler.AGAIN)
    guest.bne("a0", "zero", "bad")
    guest.number("t0", MADE_THREADS)
    guest.bne("s1", "t0", "bad")
    guest.exit()
    guest.place("bad")
    guest.exit(1)
    guest.function("child")
    guest.system(assembler.EXIT, 0)
    return guest.elf()


@case()
def threads_made(command):
    """65,535 threads, one after the other."""
    command.run("run guest", guest=one_after_the_other())
    same("main", command.part().totals, (1 + 14 * (MADE_THREADS - 1) + 10 + 5 + 3, 0, 0))
    for thread in range(2, MADE_THREADS + 1):
        assert b"\ntotals: 4 0 0 " in command.read(f"callgrind.out.1-{thread}"), f"thread {thread}"
    assert len(command.parts()) == MADE_THREADS, "not a part for each thread"
    return f"{MADE_THREADS} threads"


def calls_of(count):
    """A guest that calls a function so often."""
    guest = Assembler()
    guest.function("main")
    guest.number("s1", count)
    guest.place("next")
    guest.call("f")
    guest.addi("s1", "s1", -1)
    guest.bne("s1", "zero", "next")
    guest.exit()
    guest.function("f")
    guest.ret()
    return guest.elf()


@case()
def cuts(command):
    """4,095 cuts, after which the last part goes on: by steps, and before and after calls."""
    count = 5000
    steps = 5 + 4 * count
    for option, before, each in (
        ("--dump-every=3", 0, 3),
        ("--dump-before=f", 3, 4),
        ("--dump-after=f", 4, 4),
    ):
        command.run(f"run {option} guest", guest=calls_of(count))
        first = before or each
        same(f"{option}: first part", command.part(1).totals[0], first)
        same(f"{option}: part {CUTS}", command.part(CUTS).totals[0], each)
        same(f"{option}: last part", command.part(CUTS + 1).totals[0], steps - first - (CUTS - 1) * each)
        assert len(command.parts()) == CUTS + 1, f"{option}: {len(command.parts())} parts"
    command.run("run --dump-every=3 guest", guest=calls_of((3 * CUTS - 5) // 4))
    same("parts", (len(command.parts()), command.part(CUTS).totals[0]), (CUTS, 3))
    return f"{CUTS} cuts"
