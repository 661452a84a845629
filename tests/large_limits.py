"""Cases of tests/large.py: what a guest may ask for, and what options may be, at the limits and one beyond."""

import assembler
import programs
from assembler import Assembler
from large_guests import TABLE
from large_runs import case, same

INPUT, WRITTEN, PAIRS, RANDOM = 16777216, 1048576, 1024, 256
PAGES, STACK_PAGES, PAGE, ARGUMENTS = 65536, 2048, 4096, 65536
SMALLEST = programs.elf(programs.EXIT)


def checked(guest, register, value):
    """Goes on where a register holds a number, and ends the guest with 1 where it doesn't."""
    guest.number("t6", value)
    guest.beq(register, "t6", f"at {guest.here()}")
    guest.exit(1)
    guest.place(f"at {guest.here() - 16}")


def copies():
    """A guest that reads its whole input at once, and asks to write what is left until all is written."""
    guest = Assembler()
    guest.function("main")
    guest.number("s0", TABLE)
    guest.number("s1", INPUT)
    guest.move("a1", "s0")
    guest.move("a2", "s1")
    guest.system(assembler.READ, 0)
    checked(guest, "a0", INPUT)
    guest.place("next")
    guest.move("a1", "s0")
    guest.move("a2", "s1")
    guest.system(assembler.WRITE, 1)
    checked(guest, "a0", WRITTEN)
    guest.add("s0", "s0", "a0")
    guest.sub("s1", "s1", "a0")
    guest.bne("s1", "zero", "next")
    guest.exit()
    return guest.elf([(TABLE, b"", INPUT, programs.READ_WRITE)])


@case()
def streams(command):
    """An input of 16 MiB, read at once, and writes of 1 MiB."""
    given = b"".join(b"%15d\n" % number for number in range(INPUT // 16))
    same("output", command.run("run --input=given guest", guest=copies(), given=given), given)
    message = b"too long: given, %d bytes" % (INPUT + 1)
    command.run("run --input=given guest", 7, message, guest=copies(), given=given + b"x")
    return f"{INPUT} bytes"


def vectors():
    """A guest that reads and writes by the most pairs, and by one more, and asks for random bytes."""
    guest, buffer = Assembler(), TABLE + 8 * (PAIRS + 1)
    guest.function("main")
    for call, stream in ((assembler.READV, 0), (assembler.WRITEV, 1)):
        for count, answer in ((PAIRS + 1, assembler.INVALID), (PAIRS, PAIRS)):
            guest.number("a1", TABLE)
            guest.number("a2", count)
            guest.system(call, stream)
            checked(guest, "a0", answer & 0xFFFFFFFF)
    guest.number("a0", buffer)
    guest.system(assembler.GETRANDOM, None, RANDOM + 1, 0)
    checked(guest, "a0", RANDOM)
    guest.exit()
    pairs = [word for number in range(PAIRS + 1) for word in (buffer + 3 * number, 1)]
    return guest.elf([(TABLE, programs.words(pairs), 4 * PAGE, programs.READ_WRITE)])


@case()
def pairs(command):
    """Reads and writes of 1,024 pairs, and of one more."""
    given = bytes(range(256)) * (PAIRS // 256) + b"more"
    same("output", command.run("run --input=given guest", guest=vectors(), given=given), given[:PAIRS])
    return f"{PAIRS} pairs"


def mapped():
    """A guest that maps all pages that are left, and then has no more."""
    guest, free = Assembler(), PAGES - STACK_PAGES - 1
    guest.function("main")
    guest.addi("a0", "zero", 0)
    guest.system(assembler.BRK)
    guest.move("s2", "a0")
    for length, answer in ((free + 1, assembler.NO_MEMORY), (free, 0x40000000), (1, assembler.NO_MEMORY)):
        guest.number("a1", length * PAGE)
        guest.system(assembler.MMAP, 0, None, 3, 0x22, -1, 0)
        checked(guest, "a0", answer & 0xFFFFFFFF)
    guest.addi("a0", "s2", 1)
    guest.system(assembler.BRK)
    guest.bne("a0", "s2", "bad")
    guest.number("a0", 0x40000000)
    guest.number("a1", PAGE)
    guest.system(assembler.MUNMAP)
    checked(guest, "a0", 0)
    guest.addi("a0", "s2", 1)
    guest.system(assembler.BRK)
    guest.addi("a0", "a0", -1)
    guest.bne("a0", "s2", "bad")
    guest.exit()
    guest.place("bad")
    guest.exit(2)
    return guest.elf()


@case()
def pages(command):
    """65,536 pages at loading, and mapped by the guest, and one more."""
    command.run("run guest", guest=mapped())
    for more, status, message in ((0, 0, b""), (1, 16, b"guest memory full")):
        length = (PAGES - STACK_PAGES - 1 + more) * PAGE
        file = programs.elf(programs.EXIT, more=[(TABLE, b"", length, programs.READ_WRITE)])
        command.run("run guest", status, message, guest=file)
    return f"{PAGES} pages"


def measured(length):
    """A guest that counts the bytes of its argument, which is to have so many."""
    guest = Assembler()
    guest.function("main")
    guest.lw("a0", 0, "sp")
    checked(guest, "a0", 2)
    guest.lw("s0", 8, "sp")
    guest.move("s1", "s0")
    guest.place("next")
    guest.lbu("t0", 0, "s1")
    guest.addi("s1", "s1", 1)
    guest.bne("t0", "zero", "next")
    guest.sub("s1", "s1", "s0")
    checked(guest, "s1", length + 1)
    guest.exit()
    return guest.elf()


@case()
def arguments(command):
    """65,536 bytes of arguments, and one more."""
    length = ARGUMENTS - len("guest") - 2
    command.run(["run", "guest", "x" * length], guest=measured(length))
    part = command.read("callgrind.out.1-1").splitlines()
    same("command", part[6], b"cmd: guest " + b"x" * length)
    same("events", command.part().totals[0], 4 + 2 + 3 * (length + 1) + 4 + 3)
    message = b"arguments too long: %d bytes" % (ARGUMENTS + 1)
    command.run(["run", "guest", "x" * (length + 1)], 16, message, guest=measured(length))
    return f"{ARGUMENTS} bytes"


# each option with the last word that it takes, and the first one that it doesn't
OPTIONS = [
    ("run", "base", "b" * 200, "b" * 201),
    ("run", "budget", 10**12, 10**12 + 1),
    ("run", "quantum", 10**6, 10**6 + 1),
    ("run", "turns", 2**64 - 1, 2**64),
    ("run", "dump-every", 10**12, 10**12 + 1),
    ("run", "separate-callers", 16, 17),
    ("run", "I1", "67108864,64,1024", "134217728,64,1024"),
    ("run", "D1", "65536,64,1024", "66560,65,1024"),
    ("run", "LL", "67108864,1,1024", "67108864,1,2048"),
    ("report", "threshold", 100, 101),
]
USAGE = b"usage: run or report [OPTIONS] PROG [ARGS], annotate [OPTIONS] FILES, demo N"


@case()
def options(command):
    """The last number that each option takes, and the next one; and the largest demonstration."""
    for word, option, last, beyond in OPTIONS:
        command.run([word, f"--{option}={last}", "p1"], p1=SMALLEST)
        base = f"{last}." if option == "base" else "callgrind.out."
        same(f"--{option}", command.parts(base), [base + "1-1"])
        assert command.read(base + "1-1").endswith(b"\ntotals: 3 0 0 1 0 0 1 0 0\n"), option
        command.run([word, f"--{option}={beyond}", "p1"], 1, USAGE, p1=SMALLEST)
    command.run("demo 100001", 1, USAGE)
    size = 100000
    command.run(f"demo {size}")
    for thread in (2, 3, 4):
        totals = command.read(f"demo.out.1-{thread}").splitlines()[-1].split()
        same(f"thread {thread} of the demonstration", int(totals[1]), 947 * size + 6)
    return f"{len(OPTIONS)} options, and a demonstration of {size}"
