"""Small guest programs as ELF files, a profile as Callgrind writes it, and runs of the built program in folders of
their own. What they have to print follows from the rules of the formats, and was worked out by hand."""

import os
import struct
import subprocess
import tempfile

CODE = 0x10000
READ_EXECUTE, READ_WRITE = 5, 6

EXIT = [0x05D00893, 0x00000513, 0x00000073]
# main calls f twice, and exits
TWO_CALLS = [0x014000EF, 0x010000EF, *EXIT, 0x00150513, 0x00008067]
TWO_CALLS_FUNCTIONS = [("main", CODE, 0x14), ("f", CODE + 0x14, 8)]
# jumps to itself
SPIN = [0x0000006F]
# writes "text" and a line feed to the output, and exits with 3
WRITES = [0x04000893, 0x00100513, 0x00000597, 0x01C58593, 0x00500613, 0x00000073, 0x05D00893, 0x00300513, 0x00000073]
WRITES += [0x74786574, 0x0000000A]
# writes "one" and a line feed to the output, "two" and one to the errors, and exits with 3
BOTH = [0x04000893, 0x00100513, 0x00000597, 0x02C58593, 0x00400613, 0x00000073, 0x00200513, 0x00000597, 0x01C58593]
BOTH += [0x00000073, *WRITES[6:9], 0x0A656E6F, 0x0A6F7774]

AS_CALLGRIND_WRITES = b"""version: 1
creator: callgrind-3
pid: 77
cmd: ./a
part: 1

desc: Trigger: Program termination
positions: line
events: Ir Dr
summary: 25 2

ob=(1) /a
fl=(1) a.c
fn=(1) main
10 4 1
+2 3
cfn=(2) f
calls=1 20
* 15 1
fi=(2) a.h
3 1
fe=(1)
-1 2
fn=(2)
20 15 1
totals: 25 2
"""
REPORT_OF_IT = b"""command: ./a
events: Ir Dr
totals: 25 2
sort: Ir threshold: 0

-- functions
25 2 | 10 1 | a.c:main [/a]
15 1 | 15 1 | a.c:f [/a]
"""


def words(numbers):
    return struct.pack(f"<{len(numbers)}I", *numbers)


def elf(code, functions=(), more=(), tables=()):
    """A file of this code at CODE, where it is entered, of functions (name, address, length), of more segments
    (address, bytes, length in memory, flags), and of more sections (name, bytes)."""
    segments = [(CODE, words(code), 4 * len(code), READ_EXECUTE), *more]
    contents, place = [], 52 + 32 * len(segments)
    headers, at = b"", place
    for addr, content, length, flags in segments:
        headers += struct.pack("<8I", 1, at, addr, addr, len(content), length, flags, 4)
        contents.append(content)
        at += len(content)
    names, symbols, name = [b"\0"], [bytes(16)], 1
    for title, addr, size in functions:
        symbols.append(struct.pack("<IIIBBH", name, addr, size, 0x12, 0, 1))
        names.append(title.encode() + b"\0")
        name += len(names[-1])
    known = [(b".symtab", 2, b"".join(symbols)), (b".strtab", 3, b"".join(names))]
    known += [(title.encode(), 1, content) for title, content in tables]
    titles = b"\0.text\0" + b"".join(title + b"\0" for title, _, _ in known) + b".shstrtab\0"
    sections = bytes(40) + struct.pack("<10I", 1, 1, 6, CODE, place, 4 * len(code), 0, 0, 4, 0)
    for title, kind, content in (*known, (b".shstrtab", 3, titles)):
        tail = (3, 1, 4, 16) if kind == 2 else (0, 0, 1, 0)
        found = titles.index(b"\0" + title + b"\0") + 1
        sections += struct.pack("<10I", found, kind, 0, 0, at, len(content), *tail)
        contents.append(content)
        at += len(content)
    front = b"\x7fELF\1\1\1" + bytes(9)
    numbers = (2, 243, 1, CODE, 52, at, 0, 52, 32, len(segments), 40, len(known) + 3, len(known) + 2)
    front += struct.pack("<HHIIIIIHHHHHH", *numbers)
    return b"".join((front, headers, *contents, sections))


class Done:
    """What a command has left: its status, what it wrote, and the files of its folder."""

    def __init__(self, status, out, err, files):
        self.status, self.out, self.err, self.files = status, out, err, files

    def __eq__(self, other):
        return vars(self) == vars(other)


def run(program, command, files, environment=None):
    """Does a command (words separated by spaces) in a folder of these files (names and bytes) alone."""
    with tempfile.TemporaryDirectory() as folder:
        for name, content in files.items():
            with open(os.path.join(folder, name), "wb") as file:
                file.write(content)
        done = subprocess.run(
            [program, *command.split(" ")], cwd=folder, capture_output=True, env={**os.environ, **(environment or {})}
        )
        left = {}
        for name in os.listdir(folder):
            with open(os.path.join(folder, name), "rb") as file:
                left[name] = file.read()
    return Done(done.returncode, done.stdout, done.stderr, left)
