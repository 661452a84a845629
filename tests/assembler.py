"""A small assembler for RV32IMA, by the tables of the RISC-V unprivileged manual, for guests that a script makes: code
with functions, lines and places that are named before they stand; and the line table of such code (DWARF 5, 6.2)."""

import struct

import programs

REGISTERS = "zero ra sp gp tp t0 t1 t2 s0 s1 a0 a1 a2 a3 a4 a5 a6 a7"
REGISTERS = (REGISTERS + " s2 s3 s4 s5 s6 s7 s8 s9 s10 s11 t3 t4 t5 t6").split()
NUMBER = {name: number for number, name in enumerate(REGISTERS)}
EXIT, EXIT_GROUP, FUTEX, YIELD, CLONE, MUNMAP, MMAP, BRK = 93, 94, 98, 124, 220, 215, 222, 214
READ, WRITE, READV, WRITEV, GETRANDOM = 63, 64, 65, 66, 278
WAIT, WAKE, REQUEUE = 0, 1, 3
# what a C library's threads are made with, without the words that clone may write
THREAD_FLAGS = 0x10F00
AGAIN, NO_MEMORY, INVALID = -11, -12, -22

IMMEDIATES = {"addi": 0, "slti": 2, "sltiu": 3, "xori": 4, "ori": 6, "andi": 7}
SHIFTS = {"slli": (1, 0), "srli": (5, 0), "srai": (5, 0x20)}
SUMS = {"add": (0, 0), "sub": (0, 0x20), "sll": (1, 0), "xor": (4, 0), "srl": (5, 0), "or_": (6, 0), "and_": (7, 0)}
SUMS |= {"mul": (0, 1), "divu": (5, 1), "remu": (7, 1)}
LOADS = {"lb": 0, "lh": 1, "lw": 2, "lbu": 4, "lhu": 5}
STORES = {"sb": 0, "sh": 1, "sw": 2}
BRANCHES = {"beq": 0, "bne": 1, "blt": 4, "bge": 5, "bltu": 6, "bgeu": 7}


def upper_and_lower(value):
    """The two parts of a number, of LUI and ADDI."""
    lower = ((value & 0xFFF) ^ 0x800) - 0x800
    return (value - lower) & 0xFFFFFFFF, lower


class Assembler:
    """Code from an address on. Registers are named; a place is a name, or an address."""

    def __init__(self, base=programs.CODE):
        self.base, self.words, self.places, self.open, self.starts, self.rows = base, [], {}, [], [], []

    def here(self):
        return self.base + 4 * len(self.words)

    def place(self, name):
        self.places[name] = self.here()

    def function(self, name):
        """A function begins here, and the one before it ends."""
        self.place(name)
        self.starts.append((name, self.here()))

    def line(self, number):
        """The code from here on is of this line."""
        self.rows.append((self.here(), number))

    def functions(self):
        ends = [start for _, start in self.starts[1:]] + [self.here()]
        return [(name, start, end - start) for (name, start), end in zip(self.starts, ends)]

    def word(self, word):
        self.words.append(word & 0xFFFFFFFF)

    def __getattr__(self, name):
        """The instructions that are rows of a table, as methods."""
        if name in IMMEDIATES:
            return lambda rd, rs, value: self.immediate(0x13, IMMEDIATES[name], rd, rs, value)
        if name in SHIFTS:
            kind, high = SHIFTS[name]
            return lambda rd, rs, by: self.immediate(0x13, kind, rd, rs, by | high << 5)
        if name in SUMS:
            return lambda rd, left, right: self.sum(*SUMS[name], rd, left, right)
        if name in LOADS:
            return lambda rd, offset, base: self.immediate(0x03, LOADS[name], rd, base, offset)
        if name in STORES:
            return lambda rs, offset, base: self.store(STORES[name], rs, offset, base)
        if name in BRANCHES:
            return lambda left, right, to: self.branch(BRANCHES[name], left, right, to)
        raise AttributeError(name)

    def immediate(self, opcode, kind, rd, rs, value):
        self.word((value & 0xFFF) << 20 | NUMBER[rs] << 15 | kind << 12 | NUMBER[rd] << 7 | opcode)

    def sum(self, kind, high, rd, left, right):
        self.word(high << 25 | NUMBER[right] << 20 | NUMBER[left] << 15 | kind << 12 | NUMBER[rd] << 7 | 0x33)

    def store(self, kind, rs, offset, base):
        high, low = offset >> 5 & 0x7F, offset & 0x1F
        self.word(high << 25 | NUMBER[rs] << 20 | NUMBER[base] << 15 | kind << 12 | low << 7 | 0x23)

    def amoadd(self, rd, value, base):
        self.word(NUMBER[value] << 20 | NUMBER[base] << 15 | 2 << 12 | NUMBER[rd] << 7 | 0x2F)

    def branch(self, kind, left, right, to):
        self.open.append((len(self.words), to, branch_offset))
        self.word(NUMBER[right] << 20 | NUMBER[left] << 15 | kind << 12 | 0x63)

    def jal(self, rd, to):
        self.open.append((len(self.words), to, jump_offset))
        self.word(NUMBER[rd] << 7 | 0x6F)

    def lui(self, rd, value):
        self.word(value & 0xFFFFF000 | NUMBER[rd] << 7 | 0x37)

    def jalr(self, rd, base, offset=0):
        self.immediate(0x67, 0, rd, base, offset)

    def call(self, to):
        self.jal("ra", to)

    def jump(self, to):
        self.jal("zero", to)

    def ret(self):
        self.jalr("zero", "ra")

    def move(self, rd, rs):
        self.addi(rd, rs, 0)

    def ecall(self):
        self.word(0x73)

    def number(self, rd, value):
        """A number of any size, by two instructions."""
        upper, lower = upper_and_lower(value)
        self.lui(rd, upper)
        self.addi(rd, rd, lower)

    def address(self, rd, to):
        """The address of a place, by two instructions."""
        self.open.append((len(self.words), to, upper_part))
        self.lui(rd, 0)
        self.open.append((len(self.words), to, lower_part))
        self.addi(rd, rd, 0)

    def system(self, call, *arguments):
        """A system call, whose arguments are small numbers, or None where they stand already."""
        for number, value in enumerate(arguments):
            if value is not None:
                self.addi(f"a{number}", "zero", value)
        self.addi("a7", "zero", call)
        self.ecall()

    def exit(self, code=0):
        """The end of the program, in three instructions."""
        self.system(EXIT_GROUP, code)

    def code(self):
        """The words, each with the place that it goes to."""
        words = list(self.words)
        for index, to, fill in self.open:
            target = self.places[to] if isinstance(to, str) else to
            words[index] |= fill(target, target - self.base - 4 * index)
        return words

    def elf(self, more=(), lines=False):
        table = [(".debug_line", line_table(self.rows, self.here()))] if lines else []
        return programs.elf(self.code(), self.functions(), more, table)


def branch_offset(_, by):
    assert -4096 <= by < 4096, "a branch that is too long"
    return (by >> 12 & 1) << 31 | (by >> 5 & 0x3F) << 25 | (by >> 1 & 0xF) << 8 | (by >> 11 & 1) << 7


def jump_offset(_, by):
    assert -(1 << 20) <= by < 1 << 20, "a jump that is too long"
    return (by >> 20 & 1) << 31 | (by >> 1 & 0x3FF) << 21 | (by >> 11 & 1) << 20 | (by >> 12 & 0xFF) << 12


def upper_part(target, _):
    return upper_and_lower(target)[0]


def lower_part(target, _):
    return (upper_and_lower(target)[1] & 0xFFF) << 20


def uleb(value):
    out = bytearray()
    while value > 127:
        out.append(value & 127 | 128)
        value >>= 7
    return bytes(out) + bytes([value])


def sleb(value):
    out = bytearray()
    while not -64 <= value < 64:
        out.append(value & 127 | 128)
        value >>= 7
    return bytes(out) + bytes([value & 127])


# one file, whose path stands in the table
ONE_FILE = b"\x01\x01\x08\x01a.c\0"


def line_unit(program, files=ONE_FILE):
    """A unit of a line table with these files and this program."""
    tables = b"\1\1\1\xfb\x0e\x0d\0\1\1\1\1\0\0\0\1\0\0\1" + b"\x01\x01\x08\x01\0" + files
    unit = struct.pack("<HBBI", 5, 4, 0, len(tables)) + tables + program
    return struct.pack("<I", len(unit)) + unit


def set_address(address):
    return b"\0\5\2" + struct.pack("<I", address)


def line_table(rows, end):
    """The line table of code with these rows (address, line), which rise, up to an end."""
    program, line, address = bytearray(set_address(rows[0][0]) + b"\4\0"), 1, rows[0][0]
    for at, number in rows:
        if at != address:
            program += b"\2" + uleb(at - address)
        if number != line:
            program += b"\3" + sleb(number - line)
        program += b"\1"
        address, line = at, number
    program += b"\2" + uleb(end - address) + b"\0\1\1"
    return line_unit(bytes(program))
