#!/usr/bin/env python3
"""Files of symbols alone, and a plain search for the symbol of an address: `model.py` writes the files beside it, and
`model.py FILE FROM TO` prints what `each` has to print of a file. The rules are those of the standard (gABI, Symbol
Table) and of the profiler's README: a function with a size covers its bytes; where none does, a symbol without a size
covers up to its section's next greater value, and not past the section. Of several the greatest value counts, then the
binding (global, weak, other), then the lesser name, and then the first of the table."""
import struct
import sys

LOCAL, GLOBAL, WEAK = 0, 1, 2
NOTYPE, OBJECT, FUNC = 0, 1, 2
UNDEF, LORESERVE, ABS = 0, 0xFF00, 0xFFF1
ALLOC, EXECINSTR = 2, 4
PROGBITS, SYMTAB, STRTAB, NOBITS = 1, 2, 3, 8

# a section: where it begins, how many bytes it has, and its flags
CODE = (0x100, 0x80, ALLOC | EXECINSTR)
BEHIND = (0x180, 0x40, ALLOC | EXECINSTR)
DATA = (0x200, 0x40, ALLOC)
HIGH = (0x10000, 0x10, ALLOC | EXECINSTR)


def symbol(name, value, size, binding=GLOBAL, kind=FUNC, section=1):
    return name, value, size, binding, kind, section


# a line table of two files: line 3 of /d/inc/b.c from 0x10000, and line 4 of /d/a.c from 0x10004 to 0x10008
TWO_FILES = (b"\x45\0\0\0\x05\0\x04\0\x2d\0\0\0\x01\x01\x01\xfb\x0e\x0d\0\x01\x01\x01\x01\0\0\0\x01\0\0\x01"
             b"\x01\x01\x08\x02/d\0inc\0\x02\x01\x08\x02\x0b\x02a.c\0\0b.c\0\x01"
             b"\0\x05\x02\0\0\x01\0\x14\x04\0\x4b\x02\x04\0\x01\x01")
# one of two rows of file 1: lines 3 and 4
TWO_ROWS = (b"\x43\0\0\0\x05\0\x04\0\x2d\0\0\0\x01\x01\x01\xfb\x0e\x0d\0\x01\x01\x01\x01\0\0\0\x01\0\0\x01"
            b"\x01\x01\x08\x02/d\0inc\0\x02\x01\x08\x02\x0b\x02a.c\0\0b.c\0\x01"
            b"\0\x05\x02\0\0\x01\0\x14\x4b\x02\x04\0\x01\x01")

# the files: sections, which are numbered from 1, symbols, and a line table
FILES = {
    # a function in another one, and one without a size in both
    "nested": ([CODE], [symbol("f", 0x100, 0x40), symbol("g", 0x110, 0x10), symbol("h", 0x118, 0)], b""),
    "empty": ([CODE], [], b""),
    # a local, a weak and two global functions at one address
    "tied": ([CODE], [symbol("f1", 0x100, 8, LOCAL), symbol("f0", 0x100, 8, WEAK), symbol("f2", 0x100, 8),
                      symbol("f3", 0x100, 8)], b""),
    # a local function and a weak one at one address, the local one with the lesser name
    "weak": ([CODE], [symbol("f1", 0x100, 8, LOCAL), symbol("f2", 0x100, 8, WEAK)], b""),
    # two functions that tie in value, binding and name
    "equal": ([CODE], [symbol("f", 0x100, 8), symbol("f", 0x100, 0x10)], b""),
    "equal-turned": ([CODE], [symbol("f", 0x100, 0x10), symbol("f", 0x100, 8)], b""),
    # symbols that stand for no code, and one whose size reaches past its section
    "left-out": ([CODE, BEHIND, DATA],
                 [symbol("object", 0x104, 4, kind=OBJECT), symbol("data", 0x200, 4, section=3),
                  symbol("absolute", 0x108, 4, section=ABS), symbol("undefined", 0x10C, 4, section=UNDEF),
                  symbol("$x", 0x110, 4), symbol(".L1", 0x114, 4), symbol("", 0x118, 4),
                  symbol("past", 0x17C, 0x20)], b""),
    # symbols without a size in two sections, and one with a size among them
    "unsized": ([CODE, BEHIND], [symbol("first", 0x100, 0), symbol("label", 0x140, 0, kind=NOTYPE),
                                 symbol("behind", 0x190, 0, section=2), symbol("inner", 0x150, 8)], b""),
    # functions of one name in two files, and names that are cleaned
    "files": ([HIGH], [symbol("f", 0x10000, 4), symbol("f", 0x10004, 4), symbol(" ?", 0x10008, 2),
                       symbol("??", 0x1000A, 2)], TWO_FILES),
    "rows": ([], [], TWO_ROWS),
}


def file_of(sections, symbols, lines):
    """An ELF file with the entry 0x1000 and a segment without bytes in the file."""
    names, entries = b"\0", b""
    for name, value, size, binding, kind, section in symbols:
        entries += struct.pack("<IIIBBH", len(names), value, size, binding * 16 + kind, 0, section)
        names += name.encode() + b"\0"
    # sh_name, sh_type, sh_flags, sh_addr, the bytes or the size, sh_link, sh_entsize
    headers = [(0, 0, 0, 0, 0, 0, 0)] + [(0, NOBITS, flags, addr, size, 0, 0) for addr, size, flags in sections]
    headers += [(0, SYMTAB, 0, 0, entries, len(headers) + 1, 16), (0, STRTAB, 0, 0, names, 0, 0)]
    if lines:
        headers += [(1, PROGBITS, 0, 0, lines, 0, 0), (0, STRTAB, 0, 0, b"\0.debug_line\0", 0, 0)]
    strings = len(headers) - 1 if lines else 0
    file = struct.pack("<16sHHIIIIIHHHHHH", b"\x7fELF\1\1\1", 2, 243, 1, 0x1000, 52, 84, 0, 52, 32, 1, 40,
                       len(headers), strings)
    file += struct.pack("<8I", 1, 0, 0x1000, 0x1000, 0, 0x1000, 5, 4)
    contents, place = b"", 84 + 40 * len(headers)
    for name, kind, flags, addr, content, link, each in headers:
        size = len(content) if isinstance(content, bytes) else content
        offset = place + len(contents) if isinstance(content, bytes) else 0
        file += struct.pack("<10I", name, kind, flags, addr, offset, size, link, 0, 0, each)
        contents += content if isinstance(content, bytes) else b""
    return file + contents


def read(file):
    """The sections (address, size, flags) and symbols of a file."""
    (at,), (count,) = struct.unpack_from("<I", file, 32), struct.unpack_from("<H", file, 48)
    headers = [struct.unpack_from("<10I", file, at + 40 * i) for i in range(count)]
    table = next((h for h in headers if h[1] == SYMTAB), None)
    symbols = []
    for i in range(table[5] // 16 if table else 0):
        name, value, size, info, _, section = struct.unpack_from("<IIIBBH", file, table[4] + 16 * i)
        start = headers[table[6]][4] + name
        symbols.append((file[start:file.index(0, start)], value, size, info >> 4, info & 15, section))
    return [(h[3], h[5], h[2]) for h in headers], symbols


def candidates(sections, symbols):
    """The symbols that may stand for code."""
    return [s for s in symbols
            if s[4] in (FUNC, NOTYPE) and UNDEF < s[5] < min(LORESERVE, len(sections))
            and sections[s[5]][2] & EXECINSTR and s[0] and not s[0].startswith((b"$", b".L"))]


def symbol_at(sections, found, address):
    """The symbol of an address among candidates, or nothing."""
    def is_sized(s):
        return s[4] == FUNC and s[2] > 0

    def covers(s):
        return (not is_sized(s) and s[1] <= address < sum(sections[s[5]][:2])
                and not any(o[5] == s[5] and s[1] < o[1] <= address for o in found))

    def preference(s):
        return -s[1], {GLOBAL: 0, WEAK: 1}.get(s[3], 2), s[0]

    sized = [s for s in found if is_sized(s) and s[1] <= address < s[1] + s[2]]
    return min(sized or [s for s in found if covers(s)], key=preference, default=None)


def each(file, start, end):
    """The name of the symbol of each address where it changes, and a star where the symbol begins."""
    sections, symbols = read(file)
    found, text, last = candidates(sections, symbols), "", None
    for address in range(start, end):
        best = symbol_at(sections, found, address)
        name, is_entry = (best[0].decode(), best[1] == address) if best else ("???", False)
        if is_entry or name != last:
            text += f" {address:x} {name}{'*' * is_entry};"
        last = name
    return text


if __name__ == "__main__":
    if len(sys.argv) == 4:
        print(each(open(sys.argv[1], "rb").read(), int(sys.argv[2], 16), int(sys.argv[3], 16)))
    else:
        for name, parts in FILES.items():
            open(name, "wb").write(file_of(*parts))
