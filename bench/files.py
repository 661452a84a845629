#!/usr/bin/env python3
"""Writes a file that the benchmarks read: `files.py KIND WORD.. FILE`.

functions COUNT               a program of so many functions of four instructions, each on a line of its own
segments COUNT LEN STEP TURN  a program of so many segments without bytes in the file, of so many bytes in memory, each so
                              many addresses after the one before it; their headers are in turns of so many
overlap COUNT LEN STEP TURN   the same, with the last segment at the address of the first
loop ROUNDS                   a program of one loop, without symbols
blocks COUNT                  a profile of so many blocks of about 70 bytes, of 20,000 functions in turn, with ids,
                              relative positions and calls
rows FUNCTIONS BLOCKS LINES   a profile of so many functions in turn, each block of which is a row of one of them, at one
                              of so many lines, and a call by it of one before"""

import struct
import sys

BASE = 0x10000
READ_EXECUTE, ALL = 5, 7
FUNCTIONS = 20_000


def words(*numbers):
    return struct.pack(f"<{len(numbers)}I", *numbers)


def header(programs, sections, place):
    """The header of a program (gABI, ELF Header), behind which so many program headers stand, with so many headers of
    sections at a place of the file."""
    magic = b"\x7fELF\1\1\1" + bytes(9)
    return magic + struct.pack("<HHIIIIIHHHHHH", 2, 243, 1, BASE, 52, place, 0, 52, 32, programs, 40, sections, 0)


def segment(place, length, addr, memory, flags):
    return words(1, place, addr, addr, length, memory, flags, 1)


def name(k):
    return f"n{k:06}".encode() + b"\0"


def line_rows(k):
    """The rows of a function, a sequence (DWARF 5, 6.2.5): its address, the first file, the lines from one on, a row for
    each of four instructions, and the end behind the last."""
    line = 4 * k
    lines = bytes([line % 128 + 128, line // 128 % 128 + 128, line // 16384 % 64])
    return b"\0\5\2" + words(BASE + 16 * k) + b"\4\0\3" + lines + b"\1\x4b\x4b\x4b\2\4\0\1\1"


def line_table(count):
    """The section `.debug_line` (DWARF 5, 6.2.4): one unit of the file many.s."""
    head = b"\1\1\1\xfb\x0e\x0d\0\1\1\1\1\0\0\0\1\0\0\1" + b"\1\1\x08\1\0\1\1\x08\1many.s\0"
    unit = b"\5\0\4\0" + words(len(head)) + head + b"".join(line_rows(k) for k in range(count))
    return words(len(unit)) + unit


def functions(count):
    code = b"\x13\0\0\0\x13\0\0\0\x13\0\0\0\x67\x80\0\0" * count
    symbols = bytes(16) + b"".join(words(8 * k + 1, BASE + 16 * k, 16, 0x10012) for k in range(count))
    strings = b"\0" + b"".join(name(k) for k in range(count))
    names = b"\0.text\0.symtab\0.strtab\0.debug_line\0.shstrtab\0"
    # name, type, flags, address, bytes, link, info, length of an entry
    sections = [(b".text", 1, 6, BASE, code, 0, 0, 0), (b".symtab", 2, 0, 0, symbols, 3, 1, 16),
                (b".strtab", 3, 0, 0, strings, 0, 0, 0), (b".debug_line", 1, 0, 0, line_table(count), 0, 0, 0),
                (b".shstrtab", 3, 0, 0, names, 0, 0, 0)]
    place = 84 + 40 * (len(sections) + 1)
    front, rows, contents = segment(place, len(code), BASE, len(code), READ_EXECUTE), bytes(40), b""
    for label, kind, flags, addr, content, link, info, each in sections:
        at = names.index(label + b"\0")
        rows += words(at, kind, flags, addr, place + len(contents), len(content), link, info, 1, each)
        contents += content
    head = bytearray(header(1, len(sections) + 1, 84))
    head[50] = len(sections)
    return bytes(head) + front + rows + contents


def segments(count, length, step, turn, last=None):
    addresses = [BASE + step * (k * turn % count) for k in range(count)]
    if last is not None:
        addresses[-1] = last
    return header(count, 0, 0) + b"".join(segment(0, 0, addr, length, READ_EXECUTE) for addr in addresses)


def overlap(count, length, step, turn):
    return segments(count, length, step, turn, BASE)


def loop(rounds):
    """Ten instructions a round, of which three refer to memory; then the program exits with 0."""
    code = words(
        (rounds + 0x800) // 0x1000 % 0x100000 << 12 | 0x2B7,  # lui t0, upper
        rounds % 0x1000 << 20 | 0x28293,  # addi t0, t0, lower
        0x00010537,  # lui a0, 0x10
        0x40052583,  # round: lw a1, 0x400(a0)
        0x00158593,  # addi a1, a1, 1
        0x40B52023,  # sw a1, 0x400(a0)
        0x00B64633,  # xor a2, a2, a1
        0x44C51223,  # sh a2, 0x444(a0)
        0x00361693,  # slli a3, a2, 3
        0x02D68733,  # mul a4, a3, a3
        0x00E6F7B3,  # and a5, a3, a4
        0xFFF28293,  # addi t0, t0, -1
        0xFC029EE3,  # bne t0, x0, round
        0x05D00893,  # addi a7, x0, 93
        0x00000513,  # addi a0, x0, 0
        0x00000073,  # ecall
    )
    return header(1, 0, 0) + segment(84, len(code), BASE, 4096, ALL) + code


def function(number, is_first):
    return f"fn=({number})" + (f" function_{number}" if is_first else "")


def blocks(count):
    text = ["events: Ir Dr Dw\nfl=(1) bench.c\n"]
    for block in range(count):
        number, callee = block % FUNCTIONS, block // 3 % FUNCTIONS
        text.append(f"{function(number, block < FUNCTIONS)}\n{number} 12 3 4\n+2 71\n* 5 1\n-1 18 0 6\n"
                    f"cfn=({callee})\ncalls=2 +7\n* 1034 22\n")
    return "".join(text).encode()


def rows(count, many, lines):
    text = ["events: Ir Dr\nfl=(1) bench.c\n"]
    for block in range(many):
        number, turn, line = block % count, block // count, block % lines + 1
        callee = number // (turn % 1000 + 2)
        text.append(f"{function(number, block < count)}\n{line} 12 3\ncfn=({callee})\ncalls=2 {line}\n* 1034 22\n")
    return "".join(text).encode()


KINDS = {"functions": functions, "segments": segments, "overlap": overlap, "loop": loop, "blocks": blocks, "rows": rows}

if __name__ == "__main__":
    if len(sys.argv) < 4 or sys.argv[1] not in KINDS:
        sys.exit(__doc__)
    with open(sys.argv[-1], "wb") as file:
        file.write(KINDS[sys.argv[1]](*map(int, sys.argv[2:-1])))
