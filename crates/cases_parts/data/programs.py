#!/usr/bin/env python3
"""Writes the programs of the script beside it: ELF files of 32 bits for RISC-V (gABI, chapters 4 and 5), each with a section
of its code, the symbols of its functions and, where lines are said, a line table (DWARF 5, 6.2.4). All numbers of code and
data are words of four bytes in hexadecimal digits."""
import struct

ENTRY = 0x10000
PROGBITS, SYMTAB, STRTAB = 1, 2, 3
ALLOC, EXECINSTR = 2, 4
READ_EXECUTE, READ_WRITE = 5, 6
SIXTEEN = "0 " * 16
NAMES = ["(1) (2) x", "(1)", "a b", " a\tb ", "jump=", "calls=1 2", "+1", "#", "events: Ir", "a\r", "a\nfn=(1)",
         "f(int, 1) " * 400 + "x"]

# name: code, what stands in memory beside it (an address and words, or a number of bytes), functions (name, address and
# size), files, and lines (address, file and line, and an end)
PROGRAMS = {
    "bare": (SIXTEEN, [], [], [], []),
    "calls": (SIXTEEN, [], [("main", 0x10000, 0x14), ("f", 0x10014, 8)], [], []),
    "files": (SIXTEEN, [],
              [("f", 0x10000, 0x10), ("g", 0x10010, 8), ("h", 0x10018, 8), ("h", 0x10020, 8)],
              ["a.c", "b.h", "c.h", "d.c"],
              [(0x10000, 0, 1), (0x10004, 1, 2), (0x10008, 2, 3), (0x1000c, 0, 4), (0x10010, 3, 7), (0x10018, 0, 9),
               (0x10020, 1, 8), 0x10040]),
    "pair": (SIXTEEN, [], [("f", 0x10000, 16), ("g", 0x10010, 8)], ["a.c", "b.h"],
             [(0x10000, 0, 1), (0x10004, 1, 2), (0x10010, 1, 7), 0x10040]),
    # functions in three files, two of one name, with code of none of them at the end
    "drawn": (SIXTEEN, [], [("f", 0x10000, 16), ("g (1)", 0x10010, 16), ("h", 0x10020, 8), ("h", 0x10028, 8)],
              ["a.c", "(2) b.h", "c"],
              [(0x10000, 0, 1), (0x10004, 1, 2), (0x10008, 0, 3), (0x10010, 1, 7), (0x10018, 2, 9), (0x10020, 0, 10),
               (0x10028, 2, 10), (0x10030, 1, 100), 0x10040]),
    # names that look like something else, and a long one; each function stands in a file of the same name
    "named": ("0 " * 2 * len(NAMES), [], [(name, 0x10000 + 8 * place, 8) for place, name in enumerate(NAMES)], NAMES,
              [*[(0x10000 + 8 * place, place, 1) for place in range(len(NAMES))], 0x10000 + 8 * len(NAMES)]),
    "short": (SIXTEEN, [], [("f", 0x10000, 8)], [], []),
    "long": (SIXTEEN, [], [("f", 0x10000, 0x40)], [], []),
    "namesakes": (SIXTEEN, [], [("f", 0x10000, 8), ("h", 0x10008, 8), ("h", 0x10010, 8)], ["a.c", "b.c"],
                  [(0x10000, 0, 1), (0x10008, 0, 2), (0x10010, 1, 1), 0x10040]),
    # a second thread writes with the 63rd step and ends while the first one waits for it
    "threads": ("""
00012537 06000893 00000073 00100293 10551863 00000513 0d600893 00000073 000132b7 0e551e63 00014537 0d600893 00000073
000142b7 0e551463 00000513 000035b7 00000613 02200693 fff00713 00000793 0de00893 00000073 400002b7 0c551063 40001537
000025b7 00300613 0e200893 00000073 00000293 0a551263 007d1537 f0050513 400035b7 00013637 400036b7 f0068693 00013737
0dc00893 00000073 04050263 00200293 06551a63 00013337 00032383 06539463 00013537 08000593 00200613 00000693 1a600893
00000073 00000293 04551463 00000513 05e00893 00000073 000a72b7 b6f28293 000125b7 1055a023 10058593 00100513 00300613
04000893 00000073 00300293 00551863 00000513 05d00893 00000073 04d00513 05e00893 00000073
""", [(0x12000, 0x345)], [], [], []),
    # writes of two and three bytes, one and two, by turns to standard output and standard error
    "writes": ("""
00020437 04000893 00100513 00040593 00200613 00000073 00200513 00240593 00300613 00000073 00100513 00540593 00100613
00000073 00200513 00640593 00200613 00000073 05d00893 00000513 00000073
""", [(0x20000, "64636261 68676665")], [], [], []),
    # 256 writes of eight letters and zeros, 4,096 bytes each
    "blocks": ("""
00020437 10000493 00100513 00040593 00001637 04000893 00000073 fff48493 fe0494e3 05d00893 00000513 00000073
""", [(0x20000, "64636261 68676665"), (0x20008, 0xff8)], [], [], []),
    # two instructions, and then three without end: a call, the return, and a jump back to the call
    "rounds": ("00000013 00000013 008000ef ffdff06f 00008067", [], [("main", 0x10000, 0x10), ("f", 0x10010, 4)], [], []),
    # the first thread waits, and the second one wakes it and ends
    "waits": ("""
00011537 f0050513 0dc00893 00000073 02050463 00020537 00000593 00000613 00000693 06200893 00000073 05d00893 00000513
00000073 00020537 00100593 00100613 06200893 00000073 05d00893 00700513 00000073
""", [(0x20000, 4)], [], [], []),
}


def bytes_of(words):
    return b"".join(int(word, 16).to_bytes(4, "little") for word in words.split())


def counted(content):
    return struct.pack("<I", len(content)) + content


def signed(number):
    """SLEB128 (DWARF 5, 7.6)."""
    out = bytearray()
    while not -64 <= number < 64:
        out.append(number & 0x7f | 0x80)
        number >>= 7
    return bytes(out + bytes([number & 0x7f]))


def table_of(files, lines):
    """A section with a unit of one directory, the empty one, with a row for each line, and one where they end."""
    # minimum_instruction_length, maximum_operations_per_instruction, default_is_stmt, line_base, line_range, opcode_base,
    # standard_opcode_lengths, a directory by its path in place, and files by path in place and number of a directory
    header = b"\1\1\1\xfb\x0e\x0d" + b"\0\1\1\1\1\0\0\0\1\0\0\1" + b"\1\1\x08\1\0" + b"\1\1\x08" + bytes([len(files)])
    header += b"".join(name.encode() + b"\0" for name in files)
    program, before = b"", 1
    for addr, file, line in lines[:-1]:
        # DW_LNE_set_address, DW_LNS_set_file, DW_LNS_advance_line, DW_LNS_copy
        program += b"\0\5\2" + struct.pack("<I", addr) + bytes([4, file, 3]) + signed(line - before) + b"\1"
        before = line
    program += b"\0\5\2" + struct.pack("<I", lines[-1]) + b"\0\1\1"
    return counted(struct.pack("<HBB", 5, 4, 0) + counted(header) + program)


def file_of(code, beside, functions, files, lines, of_code=READ_EXECUTE):
    code = bytes_of(code)
    # address, bytes, size in memory, flags
    segments = [(ENTRY, code, len(code), of_code)]
    for addr, content in beside:
        content = bytes_of(content) if isinstance(content, str) else (b"", content)
        segments.append((addr, *(content if isinstance(content, tuple) else (content, len(content))), READ_WRITE))
    names, symbols = b"\0", bytes(16)
    for name, addr, size in functions:
        # a global function of section 1
        symbols += struct.pack("<IIIBBH", len(names), addr, size, 0x12, 0, 1)
        names += name.encode() + b"\0"
    # name, sh_type, sh_flags, sh_addr, bytes, sh_link, sh_info, sh_entsize
    sections = [("", 0, 0, 0, b"", 0, 0, 0), (".text", PROGBITS, ALLOC | EXECINSTR, ENTRY, code, 0, 0, 0)]
    if functions:
        sections += [(".symtab", SYMTAB, 0, 0, symbols, 3, 1, 16), (".strtab", STRTAB, 0, 0, names, 0, 0, 0)]
    if lines:
        sections.append((".debug_line", PROGBITS, 0, 0, table_of(files, lines), 0, 0, 0))
    section_names = b"".join(section[0].encode() + b"\0" for section in sections) + b".shstrtab\0"
    sections.append((".shstrtab", STRTAB, 0, 0, section_names, 0, 0, 0))
    place = 52 + 32 * len(segments)
    headers, contents = b"", b""
    for addr, content, size, flags in segments:
        headers += struct.pack("<8I", 1, place + len(contents), addr, addr, len(content), size, flags, 4)
        contents += content
    table = b""
    for name, kind, flags, addr, content, link, info, each in sections:
        at = section_names.index(name.encode() + b"\0")
        offset = place if name == ".text" else place + len(contents)
        table += struct.pack("<10I", at, kind, flags, addr, offset, len(content), link, info, 0, each)
        contents += b"" if name == ".text" else content
    front = struct.pack("<16sHHIIIIIHHHHHH", b"\x7fELF\1\1\1", 2, 243, 1, ENTRY, 52, place + len(contents), 0, 52, 32,
                        len(segments), 40, len(sections), len(sections) - 1)
    return front + headers + contents + table


if __name__ == "__main__":
    for name, parts in PROGRAMS.items():
        with open(name, "wb") as file:
            file.write(file_of(*parts))
