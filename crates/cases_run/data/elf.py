"""A plain model of reading programs and their line tables, written from the rules of these formats alone."""

import struct

SHORT_HEADER = 52
FIELDS = [
    ("class", 4, 1, 1),
    ("byte order", 5, 1, 1),
    ("ident version", 6, 1, 1),
    ("kind", 16, 2, 2),
    ("machine", 18, 2, 243),
    ("version", 20, 4, 1),
]


class Damage(Exception):
    """The unit isn't accepted."""


def number(content, place, size):
    return int.from_bytes(content[place : place + size], "little")


def segments(content):
    """Offset, address, length in the file, length in memory, flags."""
    start = number(content, 28, 4)
    headers = [start + 32 * k for k in range(number(content, 44, 2))]
    fields = [struct.unpack_from("<8I", content, at) for at in headers]
    return [(f[1], f[2], f[4], f[5], f[6]) for f in fields if f[0] == 1 and f[5] != 0]


def sections(content):
    """Name, type, flags, address, offset, length, link."""
    start, count, names = number(content, 32, 4), number(content, 48, 2), number(content, 50, 2)
    if start == 0 or count == 0:
        return []
    fields = [struct.unpack_from("<7I", content, start + 40 * k) for k in range(count)]
    strings = b""
    if names < count and fields[names][1] not in (0, 8):
        strings = content[fields[names][4] : fields[names][4] + fields[names][5]]
    return [(strings[f[0] :].partition(b"\0")[0], *f[1:]) for f in fields]


def wrong_field(content):
    fields = list(FIELDS)
    if number(content, 44, 2):
        fields.append(("program header size", 42, 2, 32))
    if number(content, 48, 2) and number(content, 32, 4):
        fields.append(("section header size", 46, 2, 40))
    for name, place, size, wanted in fields:
        if number(content, place, size) != wanted:
            return f"{name} is {number(content, place, size)}"
    return None


def wrong_segment(content):
    start, place = number(content, 28, 4), 0
    if len(content) < start + 32 * number(content, 44, 2):
        return f"short, {start + 32 * number(content, 44, 2)} bytes needed"
    for k in range(number(content, 44, 2)):
        kind, offset, addr, _, length, room = struct.unpack_from("<6I", content, start + 32 * k)
        if kind == 3:
            return "interpreter"
        if kind == 1 and room:
            if length > room or addr < 0x1000 or addr + room > 0x40000000:
                return f"bad segment {place}"
            if offset + length > len(content):
                return f"short, {offset + length} bytes needed"
            place += 1
    found = segments(content)
    for j, (_, addr, _, room, _) in enumerate(found):
        for i, (_, other, _, size, _) in enumerate(found[:j]):
            if addr < other + size and other < addr + room:
                return f"segments {i} and {j} overlap"
    return None


def wrong_section(content):
    start, count = number(content, 32, 4), number(content, 48, 2)
    if start == 0 or count == 0:
        return None
    if len(content) < start + 40 * count:
        return f"short, {start + 40 * count} bytes needed"
    for k, (name, kind, flags, _, offset, length, _) in enumerate(sections(content)):
        if kind not in (0, 8) and offset + length > len(content):
            return f"short, {offset + length} bytes needed"
        if flags & 0x800 or name.startswith(b".zdebug_"):
            return f"compressed section {k}"
    return None


def is_entry(content, entry):
    executed = [segment for segment in segments(content) if segment[4] & 1]
    return entry % 4 == 0 and any(addr <= entry < addr + room for _, addr, _, room, _ in executed)


def refusal(content):
    """The first check that the bytes fail, or nothing."""
    if len(content) < SHORT_HEADER:
        return f"short, {SHORT_HEADER} bytes needed"
    if content[:4] != b"\x7fELF":
        return "not elf"
    found = wrong_field(content) or wrong_segment(content) or wrong_section(content)
    return found or (None if is_entry(content, number(content, 24, 4)) else "no entry")


def functions(content):
    """Name, address and length, the one that counts first, of sized functions alone."""
    found = sections(content)
    table = next((section for section in found if section[1] == 2), None)
    if table is None:
        return []
    strings = found[table[6]]
    strings = content[strings[4] : strings[4] + strings[5]]
    symbols = [struct.unpack_from("<3IBBH", content, table[4] + 16 * k) for k in range(table[5] // 16)]
    sized = [
        (-value, {1: 0, 2: 1}.get(info >> 4, 2), strings[name:].partition(b"\0")[0].decode(), size)
        for name, value, size, info, _, _ in symbols
        if info & 15 == 2 and size
    ]
    return [(name, -value, size) for value, _, name, size in sorted(sized)]


class Bytes:
    """The bytes of a unit, one after another."""

    def __init__(self, content):
        self.content, self.place = content, 0

    def take(self, size):
        if self.place + size > len(self.content):
            raise Damage
        self.place += size
        return self.content[self.place - size : self.place]

    def number(self, size):
        return int.from_bytes(self.take(size), "little")

    def leb(self):
        value, shift = 0, 0
        while True:
            byte = self.number(1)
            value |= (byte & 127) << shift
            shift += 7
            if byte < 128:
                break
        if value >> 64:
            raise Damage
        return value

    def signed_leb(self):
        value, shift = 0, 0
        while True:
            byte = self.number(1)
            value |= (byte & 127) << shift
            shift += 7
            if byte < 128:
                break
        value -= (byte >> 6 & 1) << shift
        if not -(2**63) <= value < 2**63:
            raise Damage
        return value

    def text(self):
        text = self.content[self.place :].partition(b"\0")[0]
        self.take(len(text) + 1)
        return text


def entries(unit):
    """The paths and directory numbers of a table whose fields are texts and bytes."""
    shape = [(unit.leb(), unit.leb()) for _ in range(unit.number(1))]
    found = []
    for _ in range(unit.leb()):
        fields = {code: unit.text() if form == 8 else unit.number({11: 1, 5: 2}[form]) for code, form in shape}
        found.append((fields.get(1, b""), fields.get(2, 0)))
    return found


def file_text(files, directories, index):
    if index >= len(files):
        return "???"
    path, place = files[index]
    if path.startswith(b"/"):
        return path.decode()
    directory = directories[place][0] if place < len(directories) else b""
    if place and place < len(directories) and not directory.startswith(b"/"):
        directory = directories[0][0] + b"/" + directory
    return (directory + b"/" + path if directory else path).decode()


def rows_of_unit(content):
    """Address, file and line of each row, and no file and line at the ends of sequences."""
    unit = Bytes(content)
    version, addr_size, selector, header = unit.number(2), unit.number(1), unit.number(1), unit.number(4)
    begin = unit.place + header
    least, operations, _, base, width, first = (unit.number(1) for _ in range(6))
    if (version, addr_size, selector, operations) != (5, 4, 0, 1) or width == 0 or first == 0:
        raise Damage
    lengths = [unit.number(1) for _ in range(first - 1)]
    if lengths[:12] != [0, 1, 1, 1, 1, 0, 0, 0, 1, 0, 0, 1][: len(lengths)]:
        raise Damage
    base -= (base >> 7) << 8
    directories = entries(unit)
    files = entries(unit)
    if not unit.place <= begin <= len(content):
        raise Damage
    unit.place = begin
    rows, addr, file, line, last = [], 0, 1, 1, None
    while unit.place < len(content):
        code, row = unit.number(1), False
        if code >= first:
            addr += (code - first) // width * least
            line += base + (code - first) % width
            row = True
        elif code == 1:
            row = True
        elif code == 2:
            addr += unit.leb() * least
        elif code == 3:
            line += unit.signed_leb()
        elif code == 4:
            file = unit.leb()
        elif code in (5, 12):
            unit.leb()
        elif code == 8:
            addr += (255 - first) // width * least
        elif code == 9:
            addr += unit.number(2)
        elif code == 0:
            length = unit.leb()
            if length == 0:
                raise Damage
            kind = unit.number(1)
            if kind == 1:
                if length != 1 or (last is not None and addr < last):
                    raise Damage
                rows.append((addr, "???", 0))
                addr, file, line, last = 0, 1, 1, None
            elif kind == 2:
                if length != 5:
                    raise Damage
                addr = unit.number(4)
            else:
                unit.take(length - 1)
        if addr >> 32 or not 0 <= line < 2**32 or (row and last is not None and addr < last):
            raise Damage
        if row:
            rows.append((addr, file_text(files, directories, file), line))
            last = addr
    if last is not None:
        raise Damage
    return rows


def rows(content):
    """The rows of a section `.debug_line` of one sequence."""
    section = next((s for s in sections(content) if s[0] == b".debug_line"), None)
    found, place = [], 0
    content = b"" if section is None else content[section[4] : section[4] + section[5]]
    while place + 4 <= len(content):
        length = number(content, place, 4)
        if length >= 0xFFFFFFF0 or place + 4 + length > len(content):
            break
        try:
            found += rows_of_unit(content[place + 4 : place + 4 + length])
        except Damage:
            pass
        place += 4 + length
    return found
