"""Cases of tests/large.py: files that are as long as may be, and lines, names and numbers in them."""

import struct

import assembler
import programs
from large_runs import case, same

FILE, SOURCE, ROWS, TEXT, EVENTS = 67108864, 16777216, 2**24, 2**28, 64
FUNCTIONS = b"\n-- functions\n"


def report(names, totals, lines, threshold=0):
    """A report on a profile without a command."""
    head = b"command: ???\nevents: %s\ntotals: %s\n" % (names, totals)
    head += b"sort: %s threshold: %d\n" % (names.split()[0], threshold)
    return head + FUNCTIONS + b"".join(line + b"\n" for line in lines)


def filled(content, length):
    """The same profile with a comment at its end, so long in all."""
    return content + b"#" * (length - len(content))


@case(2)
def profile_lines(command):
    """A profile of 64 MiB, whose lines are nearly as long: a name, and numbers with zeros before them."""
    name = b"n" * (FILE - 1000)
    profile = b"events: Ir\nfn=" + name + b"\n1 7\n"
    wanted = report(b"Ir", b"7", [b"7 | 7 | ???:" + name])
    same("long name", command.run("annotate profile", profile=filled(profile, FILE)) == wanted, True)
    message = b"too long: profile, %d bytes" % (FILE + 1)
    command.run("annotate profile", 7, message, profile=filled(profile, FILE + 1))
    zeros = b"0" * (FILE // 3)
    profile = b"events: Ir\nfn=f\n" + zeros + b"1 " + zeros + b"7\n2 5\n"
    same("long numbers", command.run("annotate profile", profile=profile), report(b"Ir", b"12", [b"12 | 12 | ???:f"]))
    profile = b"events: Ir\nfn=f\n1 " + b"1" * (FILE // 3) + b"\n"
    command.run("annotate profile", 8, b"profile line 3: bad number", profile=profile)
    profile = b"events: Ir\nfn=f\n1 " + b"1" * (FILE // 3) + b"x\n"
    command.run("annotate profile", 8, b"profile line 3: bad line", profile=profile)
    return f"{FILE} bytes, lines of {len(name)} and {2 * len(zeros)}"


@case()
def numbers(command):
    """64 kinds of event and one more, sums of 64 bits and one more."""
    names = b" ".join(b"E%d" % number for number in range(EVENTS))
    costs = b" ".join(b"%d" % number for number in range(EVENTS))
    profile = b"events: " + names + b"\nfn=f\n1 " + costs + b"\n"
    wanted = report(names, costs, [costs + b" | " + costs + b" | ???:f"])
    same("64 events", command.run("annotate profile", profile=profile), wanted)
    more = b"events: " + names + b" E64\nfn=f\n1 1\n"
    command.run("annotate profile", 8, b"profile line 1: bad line", profile=more)
    most = b"%d" % (2**64 - 1)
    profile = b"events: Ir\nfn=f\n" + most + b" " + most + b"\n"
    wanted = report(b"Ir", most, [most + b" | " + most + b" | ???:f"])
    same("64 bits", command.run("annotate profile", profile=profile), wanted)
    command.run("annotate profile", 9, b"sum limit: event 0", profile=profile + b"1 1\n")
    for line in (b"1 %d" % 2**64, b"%d 1" % 2**64):
        profile = b"events: Ir\nfn=f\n" + line + b"\n"
        command.run("annotate profile", 8, b"profile line 3: bad number", profile=profile)
    return f"{EVENTS} events, and 64 bits"


def ring_of(names, closed):
    """A profile of functions that cost 1 each and call the next one once, the last one the first where it is closed."""
    most, lines = len(names), [b"events: Ir\n"]
    for number, name in enumerate(names):
        lines.append(b"fn=%s\n1 1\n" % name)
        if closed or number + 1 < most:
            lines.append(b"cfn=%s\ncalls=1 1\n1 %d\n" % (names[(number + 1) % most], most - 1 - number))
    return b"".join(lines)


@case(3)
def functions(command):
    """2^20 functions, each called by the one before: none in a cycle, and all in one."""
    count = 2**20
    names, total = [b"f%07d" % number for number in range(count)], b"%d" % count
    wanted = report(b"Ir", total, [b"%d | 1 | ???:%s" % (count - number, name) for number, name in enumerate(names)])
    said = command.run("annotate profile", profile=ring_of(names, closed=False))
    same("a chain", said == wanted, True)
    cycle = [total + b" | " + total + b" | <cycle 1>", *(b"  - | 1 | ???:" + name for name in names)]
    said = command.run("annotate profile", profile=ring_of(names, closed=True))
    same("a cycle", said == report(b"Ir", total, cycle), True)
    return f"{count} functions, and a cycle of them"


@case()
def source_lines(command):
    """A source of 16 MiB: one line, and as many lines as bytes; and one byte more."""
    profile, last = b"events: Ir\nfl=s.c\nfn=f\n1 5\n%d 1\n" % (SOURCE + 1), b"1 | <line %d>\n" % (SOURCE + 1)
    head = report(b"Ir", b"6", [b"6 | 6 | s.c:f"])
    for source, lines in (
        (b"s" * SOURCE, b"5 | " + b"s" * SOURCE + b"\n"),
        (b"\n" * SOURCE, b"5 | \n" + b". | \n" * (SOURCE - 1)),
    ):
        wanted = head + b"\n-- source s.c\n" + lines + last
        files = {"profile": profile, "s.c": source}
        same("source", command.run("annotate --auto=yes profile", **files) == wanted, True)
        files["s.c"] += b"s"
        wanted = head + b"\n-- source too long s.c\n"
        same("long source", command.run("annotate --auto=yes profile", **files), wanted)
    return f"a line of {SOURCE} bytes, and as many lines"


@case(2)
def rows(command):
    """More than 2^24 rows of a line table."""
    # each byte is a row, an address and a line further than the one before
    count = ROWS + 10
    program = assembler.set_address(programs.CODE - 1) + b"\4\0" + bytes([13 + 14 + 6]) * count + b"\2\1\0\1\1"
    table = [(".debug_line", assembler.line_unit(program))]
    command.run("run guest", guest=programs.elf(programs.EXIT, tables=table))
    lines = {("???", 4 * index + 2): (1, 0, 0) for index in range(3)}
    same("lines", dict(command.part().rows), lines)
    return f"{count} rows"


@case(2)
def profile_texts(command):
    """More than 2^28 bytes of the texts of a profile's functions, though the file is short."""
    count = 512
    file = b"f" * (TEXT // 256)
    functions = [b"%08d" % number for number in range(count)]
    lines = b"".join(b"fn=" + name + b"\n1 %d\n" % (number == 0) for number, name in enumerate(functions))
    profile = b"events: Ir\nfl=" + file + b"\n" + lines
    said = command.run("annotate --threshold=100 profile", profile=profile)
    wanted = report(b"Ir", b"1", [b"1 | 1 | " + file + b":00000000"], 100)
    same("report", said, wanted)
    return f"{2 * TEXT} bytes of texts"


def tails(more):
    """A text, and where tails of it begin that have 2^28 bytes together, and so many more."""
    length, count = 2**19, 512
    rest = TEXT - sum(length - start for start in range(count)) + more
    return b"t" * length, [*range(count), length - rest]


def renamed(file, starts):
    """A file with the same symbols, whose names begin at these places of the first one's."""
    out = bytearray(file)
    headers = struct.unpack_from("<I", file, 32)[0]
    table = struct.unpack_from("<I", file, headers + 2 * 40 + 16)[0]
    for number, start in enumerate(starts, 1):
        struct.pack_into("<I", out, table + 16 * number, 1 + start)
    return bytes(out)


@case(2)
def symbol_names(command):
    """More than 2^28 bytes of the names of symbols, which are tails of one text."""
    text, starts = tails(1)
    names = [text.decode(), *("t" for _ in starts[1:])]
    functions = [(name, programs.CODE + 4 * number, 4) for number, name in enumerate(names)]
    file = programs.elf(programs.EXIT + [0x13] * (len(starts) - 3), functions)
    command.run("run guest", guest=renamed(file, starts))
    wanted = {text[start:].decode(): (1, 0, 0) for start in starts[:3]}
    same("functions", command.part().functions(), wanted)
    return f"{TEXT + 1} bytes of names"


@case(2)
def line_files(command):
    """More than 2^28 bytes of the names of a line table's files, which are tails of one text."""
    text, starts = tails(1)
    files = b"\x01\x01\x1f" + assembler.uleb(len(starts)) + programs.words(starts)
    program = assembler.set_address(programs.CODE) + b"\4\0\1\2\4\4\1\1\2\x08\0\1\1"
    table = [(".debug_line", assembler.line_unit(program, files)), (".debug_line_str", text + b"\0")]
    command.run("run guest", guest=programs.elf(programs.EXIT, tables=table))
    part = command.read("callgrind.out.1-1")
    for number, name, events in ((2, text[1:], 2), (3, text, 1)):
        assert b"\nfi=(%d) %s\n1 %d 0 0 " % (number, name, events) in part, "a file isn't there"
    return f"{TEXT + 1} bytes of names of files"
