#!/usr/bin/env python3
"""calling.py ROUNDS THREADS FILE: writes a program of several threads that all call functions, with symbols and lines, to
the file. Each thread calls `f` once a round, which calls `g`: sixteen steps."""

import struct
import sys

CODE, DATA = 0x10000, 0x20000
PROGRAM = [
    0x00020437,  # lui s0, 0x20
    0x00042483,  # lw s1, 0(s0)
    0x00442903,  # lw s2, 4(s0)
    0x00010993,  # addi s3, sp, 0
    0x02090663,  # make: beq s2, x0, work
    0x000012B7,  # lui t0, 0x1
    0x405989B3,  # sub s3, s3, t0
    0x00011537,  # lui a0, 0x11
    0xF0050513,  # addi a0, a0, -256
    0x00098593,  # addi a1, s3, 0
    0x0DC00893,  # addi a7, x0, 220
    0x00000073,  # ecall
    0x00050663,  # beq a0, x0, work
    0xFFF90913,  # addi s2, s2, -1
    0xFD9FF06F,  # jal x0, make
    0x018000EF,  # work: jal ra, f
    0xFFF48493,  # addi s1, s1, -1
    0xFE049CE3,  # bne s1, x0, work
    0x05D00893,  # addi a7, x0, 93
    0x00000513,  # addi a0, x0, 0
    0x00000073,  # ecall
    0xFF010113,  # f: addi sp, sp, -16
    0x00112623,  # sw ra, 12(sp)
    0x01042303,  # lw t1, 16(s0)
    0x00130313,  # addi t1, t1, 1
    0x00642823,  # sw t1, 16(s0)
    0x010000EF,  # jal ra, g
    0x00C12083,  # lw ra, 12(sp)
    0x01010113,  # addi sp, sp, 16
    0x00008067,  # ret
    0x00150513,  # g: addi a0, a0, 1
    0x00A60633,  # add a2, a2, a0
    0x00C42A23,  # sw a2, 20(s0)
    0x00008067,  # ret
]
# the functions with their first and last words; each instruction is a line of its own
FUNCTIONS = [("main", 0, 21), ("f", 21, 30), ("g", 30, 34)]
NAMES = b"\0.debug_line\0.symtab\0.strtab\0.shstrtab\0.text\0.data\0"


def words(*numbers):
    return struct.pack(f"<{len(numbers)}I", *numbers)


def leb128(number):
    return bytes(number >> 7 * k & 127 | (128 if k < 4 else 0) for k in range(5))


def lines():
    """The section `.debug_line` (DWARF 5, 6.2): one unit of the file run.s, a sequence for each function."""
    program = b""
    for _, first, last in FUNCTIONS:
        program += b"\0\5\2" + words(CODE + 4 * first) + b"\4\0\3" + leb128(first) + b"\1"
        program += b"\x4b" * (last - first - 1) + b"\2\4\0\1\1"
    header = b"\1\1\1\xfb\x0e\x0d\0\1\1\1\1\0\0\0\1\0\0\1" + b"\1\1\x08\1\0\1\1\x08\1run.s\0"
    unit = b"\5\0\4\0" + words(len(header)) + header + program
    return words(len(unit)) + unit


def file(rounds, threads):
    """The program, whose data begin with the rounds of each thread and how many threads the first one makes."""
    code, data = words(*PROGRAM), words(rounds, max(threads, 1) - 1)
    symbols, strings = bytes(16), b"\0"
    for name, first, last in FUNCTIONS:
        symbols += words(len(strings), CODE + 4 * first, 4 * (last - first), 0x00050012)
        strings += name.encode() + b"\0"
    contents, place, places = [code, data, lines(), symbols, strings, NAMES], 116, []
    for content in contents:
        places.append((place, len(content)))
        place += len(content)
    segments = words(1, places[0][0], CODE, CODE, len(code), len(code), 5, 1)
    segments += words(1, places[1][0], DATA, DATA, len(data), 4096, 6, 1)
    # name, kind, flags, address, place and length, link, info, alignment, length of an entry
    sections = words(0, 0, 0, 0, 0, 0, 0, 0, 1, 0)
    sections += words(1, 1, 0, 0, *places[2], 0, 0, 1, 0)
    sections += words(13, 2, 0, 0, *places[3], 3, 1, 1, 16)
    sections += words(21, 3, 0, 0, *places[4], 0, 0, 1, 0)
    sections += words(29, 3, 0, 0, *places[5], 0, 0, 1, 0)
    sections += words(39, 1, 6, CODE, *places[0], 0, 0, 1, 0)
    sections += words(45, 1, 3, DATA, *places[1], 0, 0, 1, 0)
    header = b"\x7fELF\1\1\1" + bytes(9)
    header += struct.pack("<HHIIIIIHHHHHH", 2, 243, 1, CODE, 52, place, 0, 52, 32, 2, 40, 7, 4)
    return header + segments + b"".join(contents) + sections


if len(sys.argv) != 4:
    sys.exit(__doc__)
with open(sys.argv[3], "wb") as program:
    program.write(file(int(sys.argv[1]), int(sys.argv[2])))
