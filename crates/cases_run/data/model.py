#!/usr/bin/env python3
"""A plain model of `cgprof`, written from its rules alone, to say what the script has to print:
`python3 model.py < ../stdin` in this folder, some minutes. Nothing is clever here: a stack is a list of frames, the rows
of a part are sums over a list of events, by calling context and by address too, and lines are those that binutils read. As
many frames as may be live would take too long: what is printed of the program `frames` is by its rule. So would a long
demonstration each time: what its threads count is kept, as `python3 model.py SIZE` prints it. A command over the real
folder is one over what stands in this folder, and nothing is put here."""

import os
import struct
import subprocess
import sys

sys.dont_write_bytecode = True
sys.path.append("../../cases_programs/data/programs")
import demo_model
import elf
from profiles import Bad, Profile, Reader, Report, SumLimit, clean as clean_text, numbers
from words import BRANCH_EVENTS, EVENTS, RUN_OPTIONS, asked, request_text, shown_events, words_of

MASK = 0xFFFFFFFF
USAGE = "usage: run or report [OPTIONS] PROG [ARGS], annotate [OPTIONS] FILES, demo N"
ENDS = (0, 10, 11, 12, 13, 14, 15)
# what a system call always answers, and what one answers of the descriptors 0 to 2
SAID = {56: -2, 291: -2, 99: 0, 134: 0, 135: 0, 233: 0, 172: 1, 174: 0, 175: 0, 176: 0, 177: 0, 216: -12, 435: -38}
OF_STREAMS = {29: -25, 57: 0, 62: -29}
MOST_PAGES = 65536
READ, WRITE, EXECUTE = 1, 2, 4


class End(Exception):
    """The step isn't taken: what ends the run, and its number."""


class Refusal(Exception):
    """A status and its message."""


def signed(number, bits=32):
    return number - (1 << bits) if number >> (bits - 1) & 1 else number


def field(word, low, bits):
    return word >> low & ((1 << bits) - 1)


def clean(name):
    return clean_text(name.decode("latin-1"))


class Draws:
    """The generator Lcg64Xsh32, seeded by a number."""

    def __init__(self, seed):
        state, words = seed, b""
        for _ in range(4):
            state = (state * 6364136223846793005 + 11634580027462260723) % 2**64
            words += self.output(state).to_bytes(4, "little")
        self.state, self.step = (int.from_bytes(words[at : at + 8], "little") for at in (0, 8))
        self.step |= 1
        self.state = (self.state + self.step) % 2**64
        self.word()

    @staticmethod
    def output(state):
        mixed, turn = ((state >> 18) ^ state) >> 27 & MASK, state >> 59
        return (mixed >> turn | mixed << (32 - turn)) & MASK

    def word(self):
        drawn = self.output(self.state)
        self.state = (self.state * 6364136223846793005 + self.step) % 2**64
        return drawn


class Cache:
    def __init__(self, size, ways, line):
        self.size, self.ways, self.line = size, ways, line
        self.sets = [[] for _ in range(size // (ways * line))]

    def misses(self, addr, size):
        missed = False
        for block in range(addr // self.line, (addr + size - 1) // self.line + 1):
            blocks = self.sets[block % len(self.sets)]
            missed |= block not in blocks
            if block in blocks:
                blocks.remove(block)
            blocks.append(block)
            del blocks[: -self.ways]
        return int(missed)

    def description(self, name):
        return f"desc: {name} cache: {self.size} B, {self.line} B, {self.ways}-way associative"


class Program:
    """Segments (address, bytes, length in memory, permission), functions (name, address, length), rows of lines; and the
    length of its file, where that is a real one."""

    def __init__(self, segments, functions, entry, rows=(), size=None):
        self.segments, self.functions, self.entry, self.rows, self.size = segments, functions, entry, rows, size

    def function(self, addr):
        return next((name for name, first, size in self.functions if first <= addr < first + size), "???")

    def is_entry(self, addr):
        return any(first == addr for _, first, _ in self.functions)

    def line(self, addr):
        before = [row for row in self.rows if row[0] <= addr]
        return before[-1][1:] if before else ("???", 0)


def permission_of(flags):
    return READ * (flags >> 2 & 1) | WRITE * (flags >> 1 & 1) | EXECUTE * (flags & 1)


def readelf(option, path):
    words = ["riscv64-unknown-elf-readelf", "-W", option, path]
    return [line.split() for line in subprocess.run(words, capture_output=True, text=True).stdout.splitlines()]


def compiled(path):
    """A program that a compiler made: all its code is in the first section, and its sources stood in /src."""
    image = open(path, "rb").read()
    entry, headers = struct.unpack_from("<II", image, 24)
    segments = []
    for place in range(struct.unpack_from("<H", image, 44)[0]):
        kind, offset, addr, _, size, length, flags, _ = struct.unpack_from("<8I", image, headers + 32 * place)
        if kind == 1:
            segments.append((addr, image[offset : offset + size], length, permission_of(flags)))
    symbols = [
        (size == "0", -int(addr, 16), ["GLOBAL", "WEAK", "LOCAL"].index(binding), name, int(size, 0))
        for _, addr, size, kind, binding, _, section, name in (row for row in readelf("-s", path) if len(row) == 8)
        if section == "1" and kind in ("FUNC", "NOTYPE") and name[0] != "$" and not name.startswith(".L")
    ]
    starts = sorted({-addr for _, addr, *_ in symbols})
    # The first function in this order that covers an address is the one that counts.
    functions = [
        (name, -addr, size or min(start for start in starts if start > -addr) + addr)
        for _, addr, _, name, size in sorted(symbols)
    ]
    rows = [
        (int(row[2], 16), *(("???", 0) if row[1] == "-" else ("/src/" + row[0], int(row[1]))))
        for row in readelf("--debug-dump=decodedline", path)
        if len(row) > 2 and row[2].startswith("0x")
    ]
    return Program(segments, functions, entry, rows, len(image))


def real(path):
    """A real file: a program that a compiler made, or bytes."""
    content = open(path, "rb").read()
    return compiled(path) if content.startswith(b"\x7fELF") else content


def read_program(content):
    """The program of bytes that are accepted."""
    segments = [
        (addr, content[offset : offset + size], length, permission_of(flags))
        for offset, addr, size, length, flags in elf.segments(content)
    ]
    functions = [(clean_text(name), addr, size) for name, addr, size in elf.functions(content)]
    return Program(segments, functions, elf.number(content, 24, 4), elf.rows(content))


class Machine:
    """The guest's memory, threads, turns and system calls."""

    def __init__(self, program, args, data, options):
        self.memory, self.pages = {}, {}
        for addr, content, length, permission in program.segments:
            for page in range(addr >> 12, (addr + length - 1 >> 12) + 1):
                self.pages[page] = self.pages.get(page, 0) | permission
            self.put(addr, content)
        self.pages.update(dict.fromkeys(range(0x7F800, 0x80000), READ | WRITE))
        self.first_break = max(addr + length + 4095 & ~4095 for addr, _, length, _ in program.segments)
        self.last_break = self.first_break
        registers = [0] * 32
        registers[2] = self.lay_out(args)
        self.threads, self.made, self.clear = {1: [program.entry, registers]}, 1, {1: 0}
        self.ready, self.waiters, self.held = [1], [], None
        self.quantum, self.left = options["quantum"], options["quantum"]
        self.draws = None if options["turns"] is None else Draws(options["turns"])
        self.input, self.exit, self.steps = data, None, 0
        self.begin_turn()

    def lay_out(self, args):
        top = addr = 0x7FFFFFF0 - sum(len(arg) + 1 for arg in args)
        words = [len(args)]
        for arg in args:
            words.append(addr)
            self.put(addr, arg + b"\0")
            addr += len(arg) + 1
        # What stands behind the arguments is never read by these programs.
        words += [0] * 16
        stack = (top - 4 * len(words)) & ~15
        self.put(stack, struct.pack(f"<{len(words)}I", *words))
        return stack

    def begin_turn(self):
        self.left = self.quantum
        if self.draws:
            self.ready.insert(0, self.ready.pop(self.draws.word() % len(self.ready)))
            self.left = 1 + self.draws.word() % self.quantum

    def may(self, addr, size, permission):
        pages = range(addr >> 12, (addr + size - 1 >> 12) + 1) if size else ()
        return all(self.pages.get(page, 0) & permission == permission for page in pages)

    def put(self, addr, content):
        for place, byte in enumerate(content):
            self.memory[addr + place] = byte

    def take(self, addr, size):
        return bytes(self.memory.get(addr + place, 0) for place in range(size))

    def word(self, addr):
        return int.from_bytes(self.take(addr, 4), "little")

    def wake(self, addr, most):
        found = [number for at, number in self.waiters if at == addr][:most]
        self.waiters = [(at, number) for at, number in self.waiters if number not in found]
        self.woken += found
        self.roused += found
        return len(found)

    def requeue(self, addr, most, moved, other):
        woken = self.wake(addr, most)
        found = [waiter for waiter in self.waiters if waiter[0] == addr][:moved]
        self.waiters = [waiter for waiter in self.waiters if waiter not in found]
        self.waiters += [(other, number) for _, number in found]
        return woken

    def ranges(self, addr, count, most):
        """The places of the bytes that readv and writev move, or an error's number."""
        pairs = []
        for place in range(addr, addr + 8 * count, 8):
            if sum(size for _, size in pairs) >= most:
                break
            if not self.may(place, 8, READ):
                return -14
            pairs.append((self.word(place), self.word(place + 4)))
        cut = []
        for start, size in pairs:
            cut.append((start, min(size, most)))
            most -= cut[-1][1]
        return [pair for pair in cut if pair[1]]

    def move(self, number, ranges):
        """Reads the input into these ranges, or writes them to a descriptor."""
        if ranges == -14 or not all(self.may(addr, size, WRITE if number is None else READ) for addr, size in ranges):
            return -14
        if number is not None:
            self.told = (number, b"".join(self.take(*pair) for pair in ranges))
        else:
            for addr, size in ranges:
                self.put(addr, self.input[:size])
                self.input = self.input[size:]
        return sum(size for _, size in ranges)

    def call(self, thread, pc, registers):
        a, b, c, d, e, f = registers[10:16]
        number = registers[17]
        if number in SAID:
            return SAID[number]
        if number in OF_STREAMS:
            return OF_STREAMS[number] if a < 3 else -9
        if number in (129, 130, 131):
            return self.kill(number, a, b, c)
        if number in (278, 403):
            size = min(b, 256) if number == 278 else 16
            told = bytes(range(size)) if number == 278 else struct.pack("<QQ", *divmod(self.steps, 10**9))
            if not self.may(a if number == 278 else b, size, WRITE):
                return -14
            self.put(a if number == 278 else b, told)
            return size if number == 278 else 0
        if number in (63, 65):
            if a != 0:
                return -9
            if number == 65 and c > 1024:
                return -22
            room = len(self.input)
            return self.move(None, [(b, min(c, room))] if number == 63 else self.ranges(b, c, room))
        if number in (64, 66):
            if a not in (1, 2):
                return -9
            if number == 66 and c > 1024:
                return -22
            return self.move(a, [(b, min(c, 1 << 20))] if number == 64 else self.ranges(b, c, 1 << 20))
        if number in (93, 94):
            if number == 93 and self.clear[thread] and self.clear[thread] % 4 == 0 and self.may(self.clear[thread], 4, WRITE):
                self.put(self.clear[thread], bytes(4))
                self.wake(self.clear[thread], 1)
            if number == 94 or len(self.threads) == 1:
                self.exit = a & 255
            self.ends = True
            return a
        if number == 96:
            self.clear[thread] = a
            return thread
        if number in (98, 422):
            operation = b & ~(128 | 256)
            is_played = operation in (0, 1, 3) or operation in (9, 10) and f == MASK
            if not is_played or operation in (0, 9) and d != 0:
                raise End("call", number)
            if a % 4 or operation == 3 and e % 4:
                return -22
            if operation in (1, 10):
                return self.wake(a, c)
            if operation == 3:
                return self.requeue(a, c, d, e)
            if not self.may(a, 4, READ):
                return -14
            if self.word(a) != c:
                return -11
            self.waiters.append((a, thread))
            self.waits, self.word_waited_at = True, a
            return 0
        if number == 124:
            self.yields = True
            return 0
        if number == 178:
            return thread
        if number == 214:
            old, new = self.last_break + 4095 >> 12, a + 4095 >> 12
            if self.first_break <= a < 0x40000000 and len(self.pages) + new - old <= MOST_PAGES:
                self.map(range(old, new), READ | WRITE)
                self.unmap(range(new, old))
                self.last_break = a
            return self.last_break
        if number == 215:
            if a % 4096 or b == 0 or a + b > 1 << 32:
                return -22
            self.unmap(range(a >> 12, a + b + 4095 >> 12))
            return 0
        if number == 220:
            return self.clone(number, pc, registers)
        if number == 222:
            if d & 0x22 != 0x22 or d & 0x11:
                raise End("call", number)
            count, page = b + 4095 >> 12, 0x40000
            if b == 0 or len(self.pages) + count > MOST_PAGES:
                return -12 if b else -22
            while any(at in self.pages for at in range(page, page + count)):
                page += 1
            self.map(range(page, page + count), c & 7)
            return page << 12
        if number == 226:
            pages = range(a >> 12, a + b + 4095 >> 12)
            if a % 4096 or a + b > 1 << 32:
                return -22
            if not all(page in self.pages for page in pages):
                return -12
            self.map(pages, c & 7)
            return 0
        raise End("call", number)

    def map(self, pages, permission):
        self.pages.update(dict.fromkeys(pages, permission))

    def unmap(self, pages):
        for page in pages:
            if self.pages.pop(page, None) is not None:
                for addr in range(page << 12, page + 1 << 12):
                    self.memory.pop(addr, None)

    def kill(self, number, a, b, c):
        """Process and signal, thread and signal, or all three."""
        process, thread, signal = {129: (a or 1, 1, b), 130: (1, a, b), 131: (a, b, c)}[number]
        if process != 1 or number != 129 and thread not in self.threads:
            raise End("call", number)
        if 0 < signal <= 64:
            raise End("killed", signal)
        return -22 if signal else 0

    def clone(self, number, pc, registers):
        flags, stack, parent, pointer, child = registers[10:15]
        if flags & 0x10F00 != 0x10F00 or flags & ~0x17D0F00:
            raise End("call", number)
        told = [addr for flag, addr in ((0x100000, parent), (0x1000000, child)) if flags & flag]
        if not all(self.may(addr, 4, WRITE) for addr in told):
            return -14
        self.made += 1
        copied = list(registers)
        copied[10], copied[2] = 0, stack or registers[2]
        copied[4] = pointer if flags & 0x80000 else registers[4]
        self.threads[self.made] = [pc + 4, copied]
        self.clear[self.made] = child if flags & 0x200000 else 0
        for flag, addr in ((0x100000, parent), (0x1000000, child)):
            if flags & flag:
                self.put(addr, self.made.to_bytes(4, "little"))
        self.woken.append(self.made)
        return self.made

    def touch(self, kind, addr, size):
        permission = {"read": READ, "write": WRITE, "change": READ | WRITE}[kind]
        if not self.may(addr, size, permission):
            raise End("killed", 11)
        return ("write" if kind == "write" else "read", addr, size)

    def step(self):
        """Takes a step, and gives its event: thread, pc, next, stack pointer, flow, reference and branch."""
        thread = self.ready[0]
        pc, x = self.threads[thread]
        self.woken, self.yields, self.waits, self.ends, self.told = [], False, False, False, None
        self.roused, self.word_waited_at = [], None
        if not self.may(pc, 4, EXECUTE):
            raise End("killed", 11)
        word = self.word(pc)
        code, to, kind = field(word, 0, 7), field(word, 7, 5), field(word, 12, 3)
        source, high = field(word, 15, 5), field(word, 25, 7)
        a, b = x[source], x[field(word, 20, 5)]
        immediate = signed(word >> 20, 12)
        after, value, reference, flow, branch, store, held = pc + 4, None, None, "plain", None, None, self.held
        if code == 0x37:
            value = word & 0xFFFFF000
        elif code == 0x17:
            value = pc + (word & 0xFFFFF000)
        elif code == 0x6F:
            offset = field(word, 31, 1) << 20 | field(word, 12, 8) << 12
            offset |= field(word, 20, 1) << 11 | field(word, 21, 10) << 1
            value, after, flow = pc + 4, pc + signed(offset, 21), "call" if to in (1, 5) else "jump"
        elif code == 0x67 and kind == 0:
            value, after, branch = pc + 4, (a + immediate) & ~1 & MASK, "indirect"
            flow = "jump" if to not in (1, 5) else "swap" if source in (1, 5) and source != to else "call"
        elif code == 0x63 and kind in (0, 1, 4, 5, 6, 7):
            offset = field(word, 31, 1) << 12 | field(word, 7, 1) << 11
            offset |= field(word, 25, 6) << 5 | field(word, 8, 4) << 1
            less = signed(a) < signed(b) if kind < 6 else a < b
            branch = (a == b if kind < 2 else less) != bool(kind & 1)
            after = pc + signed(offset, 13) if branch else after
        elif code == 0x03 and kind in (0, 1, 2, 4, 5):
            reference = self.touch("read", (a + immediate) & MASK, 1 << (kind & 3))
            value = int.from_bytes(self.take(*reference[1:]), "little", signed=kind < 4)
        elif code == 0x23 and kind < 3:
            reference = self.touch("write", (a + signed(high << 5 | to, 12)) & MASK, 1 << kind)
            store, to = b.to_bytes(4, "little")[: 1 << kind], 0
        elif code == 0x33 and high == 1:
            value = product(kind, a, b)
        elif code in (0x13, 0x33):
            b = immediate & MASK if code == 0x13 else b
            value = arithmetic(kind, high == 0x20 and (code == 0x33 or kind == 5), a, b)
        elif code == 0x2F and kind == 2 and (high >> 2 != 2 or field(word, 20, 5) == 0):
            if a % 4:
                raise End("killed", 7)
            row = high >> 2
            if row == 3:
                value, held = int(self.held != a), None
                if value == 0:
                    reference, store = self.touch("write", a, 4), b.to_bytes(4, "little")
            else:
                reference = self.touch("read" if row == 2 else "change", a, 4)
                value = self.word(a)
                if row == 2:
                    held = a
                else:
                    store = changed(row, value, b).to_bytes(4, "little")
        elif word == 0x73:
            to, value = 10, self.call(thread, pc, x)
        elif word == 0x00100073:
            raise End("killed", 5)
        elif code == 0x0F and kind == 0:
            to = 0
        else:
            raise End("instruction", word)
        if after % 4:
            raise End("killed", 7)
        self.held = held
        if store:
            self.put(reference[1], store)
        if to and value is not None:
            x[to] = value & MASK
        self.threads[thread][0] = after
        self.steps += 1
        self.end_step(thread)
        return thread, pc, after, x[2], flow, reference, branch

    def end_step(self, thread):
        self.ready += self.woken
        self.left -= 1
        if self.ends:
            del self.threads[thread]
        if self.left == 0 or self.yields or self.waits or self.ends:
            self.ready.pop(0)
            if not self.waits and not self.ends:
                self.ready.append(thread)
            self.held = None
            if self.exit is None and self.ready:
                self.begin_turn()


def arithmetic(kind, other, a, b):
    shift = b & 31
    return [
        a - b if other else a + b,
        a << shift,
        int(signed(a) < signed(b)),
        int(a < b),
        a ^ b,
        signed(a) >> shift if other else a >> shift,
        a | b,
        a & b,
    ][kind]


def product(kind, a, b):
    first, second = signed(a), signed(b)
    if kind < 4:
        return [a * b, first * second >> 32, first * b >> 32, a * b >> 32][kind]
    if kind in (5, 7):
        first, second = a, b
    if second == 0:
        return MASK if kind < 6 else first
    quotient = abs(first) // abs(second) * (1 if (first < 0) == (second < 0) else -1)
    return quotient if kind < 6 else first - quotient * second


def changed(row, old, b):
    first, second = signed(old), signed(b)
    return {
        0: old + b,
        1: b,
        4: old ^ b,
        8: old | b,
        12: old & b,
        16: min(first, second),
        20: max(first, second),
        24: min(old, b),
        28: max(old, b),
    }[row] & MASK


class Costs:
    def __init__(self, options):
        self.caches = [Cache(*options[name]) for name in ("I1", "D1", "LL")]
        self.counts_branches, self.counters, self.targets = options["branch-sim"] == "yes", {}, {}

    def of(self, pc, after, reference, branch):
        first, data, last = self.caches
        cost = [1] + [0] * (12 if self.counts_branches else 8)
        if first.misses(pc, 4):
            cost[3], cost[6] = 1, last.misses(pc, 4)
        if reference:
            kind, addr, size = reference
            place = 1 + (kind == "write")
            cost[place] = 1
            if data.misses(addr, size):
                cost[place + 3], cost[place + 6] = 1, last.misses(addr, size)
        if self.counts_branches and branch == "indirect":
            place = pc // 4 % 512
            cost[11], cost[12] = 1, int(self.targets.get(place, 0) != after)
            self.targets[place] = after
        elif self.counts_branches and branch is not None:
            place = pc // 4 % 16384
            count = self.counters.get(place, 0)
            cost[9], cost[10] = 1, int((count >= 2) != branch)
            self.counters[place] = min(3, count + 1) if branch else max(0, count - 1)
        return cost


class Stack:
    """Frames (function, kind, arc, return address, stack pointer); an arc is caller, file, line and callee."""

    def __init__(self, program, pc, by_address=False):
        self.program, self.by_address = program, by_address
        self.frames = [(program.function(pc), "root", None, None, None)]

    def context(self, place, callers):
        """The functions of a frame and of so many beneath it, the nearest first."""
        return tuple(frame[0] for frame in reversed(self.frames[max(0, place - callers) : place + 1]))

    def spot(self, pc):
        """Where an event counts: file and line, and the address too where they are told apart by it."""
        return (*self.program.line(pc), pc) if self.by_address else self.program.line(pc)

    def entered(self, place, callers):
        """The arc of a frame: the context of the frame beneath, where it was entered from, and its own context."""
        entered_from = self.frames[place][3] - 4
        return self.context(place - 1, callers), self.spot(entered_from), self.context(place, callers)

    def group(self):
        return max(place for place, frame in enumerate(self.frames) if frame[1] != "jump")

    def drop(self, place):
        self.dropped += self.frames[place:]
        del self.frames[place:]

    def push(self, kind, pc, callee, pointer):
        arc = (self.frames[-1][0], *self.program.line(pc), callee)
        self.pushed = (callee, kind, arc, pc + 4, pointer)
        self.frames.append(self.pushed)

    def cut(self, after, pointer):
        frames, callee = self.frames, self.program.function(after)
        same = [k for k, frame in enumerate(frames) if frame[1] == "call" and frame[3:] == (after, pointer)]
        if same:
            return self.drop(same[-1])
        if frames[self.group()][1] == "call" and frames[self.group()][3] == after:
            return self.drop(self.group())
        while frames[self.group()][1] == "call" and frames[self.group()][4] < pointer:
            self.drop(self.group())
        while frames[self.group()][1] == "call" and frames[self.group()][4] == pointer:
            first = self.group()
            is_left = all(frame[0] != callee for frame in frames[first:]) and frames[first - 1][0] == callee
            if self.program.is_entry(after) or not is_left:
                break
            self.drop(first)

    def take(self, pc, after, pointer, flow, ends):
        self.pushed, self.dropped = None, []
        callee = self.program.function(after)
        if ends:
            return self.drop(0)
        if flow in ("jump", "swap"):
            self.cut(after, pointer)
        if flow in ("call", "swap"):
            return self.push("call", pc, callee, pointer)
        if self.frames[-1][0] != callee:
            own = [k for k in range(self.group(), len(self.frames)) if self.frames[k][0] == callee]
            if own:
                self.drop(own[-1] + 1)
            else:
                self.push("jump", pc, callee, pointer)


def added(sums, key, cost):
    sums[key] = [a + b for a, b in zip(sums.get(key, [0] * len(cost)), cost)]


class Names:
    """The numbers of names, in the order of first writing. A context is written by its functions, joined."""

    def __init__(self):
        self.numbers = {}

    def of(self, name):
        if name in self.numbers:
            return f"({self.numbers[name]})"
        self.numbers[name] = len(self.numbers) + 1
        return f"({self.numbers[name]}) {name if isinstance(name, str) else chr(39).join(name)}"


class Run:
    def __init__(self, program, options, command, put, write):
        self.program, self.options, self.command, self.put, self.write = program, options, command, put, write
        self.costs, self.stacks, self.segment, self.parts = Costs(options), {}, [], 0
        self.stood, self.trace = [], []
        self.by_address = options["dump-instr"] == "yes"

    def to_the_end(self, machine):
        """Runs the machine to its end: the status, and the message."""
        while True:
            if machine.exit is not None:
                return 0, f"exited with {machine.exit}" if machine.exit else None
            if machine.steps == self.options["budget"]:
                return 13, f"budget of {machine.steps} steps spent"
            if not machine.ready:
                return 15, "all threads wait"
            pc = machine.threads[machine.ready[0]][0]
            try:
                event = machine.step()
            except End as end:
                kind, number = end.args
                return {
                    "killed": (10, f"killed by signal {number} at 0x{pc:08x}"),
                    "instruction": (11, f"unsupported instruction 0x{number:08x} at 0x{pc:08x}"),
                    "call": (12, f"unsupported call {number} at 0x{pc:08x}"),
                }[kind]
            self.note(machine, *event)

    def note(self, machine, thread, pc, after, pointer, flow, reference, branch):
        stack = self.stacks.setdefault(thread, Stack(self.program, pc, self.by_address))
        callers = self.options.get("separate-callers") or 0
        arcs = [stack.entered(k, callers) for k, frame in enumerate(stack.frames) if frame[2]]
        place = (stack.context(len(stack.frames) - 1, callers), stack.spot(pc))
        cost = self.costs.of(pc, after, reference, branch)
        self.stood.append((frozenset(frame[0] for frame in stack.frames), cost))
        self.trace.append((thread, cost, machine.word_waited_at, machine.roused))
        stack.take(pc, after, pointer, flow, machine.ends)
        pushed = stack.entered(len(stack.frames) - 1, callers) if stack.pushed else None
        self.segment.append((thread, place, cost, arcs, pushed))
        if machine.told and machine.told[1]:
            self.write(*machine.told)
        trigger = self.trigger(machine.steps, stack)
        if trigger and self.parts < 4095:
            self.cut(trigger)

    def trigger(self, steps, stack):
        every, before, after = (self.options[name] for name in ("dump-every", "dump-before", "dump-after"))
        if every and steps % every == 0:
            return f"--dump-every={every}"
        if before is not None and stack.pushed and stack.pushed[0] == before:
            return f"--dump-before={before}"
        if after is not None and any(frame[0] == after for frame in stack.dropped):
            return f"--dump-after={after}"
        return None

    def cut(self, trigger):
        self.parts += 1
        events, self.segment = self.segment, []
        for thread in sorted({event[0] for event in events}):
            own = [event[1:] for event in events if event[0] == thread]
            self.put(f"{self.options['base']}.{self.parts}-{thread}", self.text(thread, own, trigger))

    def waits(self):
        """The report on waiting: the events behind each wait, up to the one that wakes the thread."""
        width, spots = len((EVENTS + BRANCH_EVENTS * self.costs.counts_branches).split(" ")), {}
        for place, (thread, _, word, _) in enumerate(self.trace):
            if word is None:
                continue
            behind = list(range(place + 1, len(self.trace)))
            wakes = [later for later in behind if thread in self.trace[later][3]]
            waited = [later for later in behind if not wakes or later <= wakes[0]]
            assert all(self.trace[later][0] != thread for later in waited)
            spot = spots.setdefault((thread, word), {"waits": 0, "open": 0, "cost": [0] * width, "wakers": {}})
            spot["waits"] += 1
            spot["cost"] = [sum(numbers) for numbers in zip(spot["cost"], *(self.trace[later][1] for later in waited))]
            if wakes:
                waker = self.trace[wakes[0]][0]
                spot["wakers"][waker] = spot["wakers"].get(waker, 0) + 1
            else:
                spot["open"] = 1
        return self.waits_text(width, spots)

    def waits_text(self, width, spots):
        lines = ["# waits", "cmd: " + clean(b" ".join(self.command))]
        lines.append("events: " + EVENTS + BRANCH_EVENTS * self.costs.counts_branches)
        for (thread, word), spot in sorted(spots.items()):
            lines.append(f"thread {thread} word 0x{word:08x} waits {spot['waits']} open {spot['open']} cost {numbers(spot['cost'])}")
            lines += [f"  woken by {waker} times {times}" for waker, times in sorted(spot["wakers"].items())]
        total = [0] * width
        for spot in spots.values():
            total = [a + b for a, b in zip(total, spot["cost"])]
        return lines + ["total " + numbers(total)]

    def frames(self):
        """An endless recursion in one step: the frame of the step k stands under all steps behind it."""
        most, place = 4194304, (("???",), ("???", 0))
        cost, above = [most, 0, 0, 1, 0, 0, 1, 0, 0], [most * (most - 1) // 2] + [0] * 8
        self.parts, arc = 1, (*place, ("???",))
        text = self.part(1, "Program termination", {place: cost}, {arc: above}, {arc: most})
        self.put(f"{self.options['base']}.1-1", text)
        return 14, f"{most} frames are live"

    def text(self, thread, events, trigger):
        lines, arcs, calls = {}, {}, {}
        for place, cost, above, pushed in events:
            added(lines, place, cost)
            for arc in above:
                added(arcs, arc, cost)
            if pushed:
                added(arcs, pushed, [0] * len(cost))
                calls[pushed] = calls.get(pushed, 0) + 1
        return self.part(thread, trigger, lines, arcs, calls)

    def part(self, thread, trigger, lines, arcs, calls):
        sums = numbers(map(sum, zip(*lines.values())))
        head = ["# callgrind format", "version: 1", "creator: cgprof-1", "pid: 1", f"thread: {thread}"]
        head += [f"part: {self.parts}", "cmd: " + clean(b" ".join(self.command))]
        head += [cache.description(name) for cache, name in zip(self.costs.caches, ("I1", "D1", "LL"))]
        head += ["desc: Trigger: " + trigger, "positions: instr line" if self.by_address else "positions: line"]
        head += ["events: " + EVENTS + BRANCH_EVENTS * self.costs.counts_branches, "summary: " + sums]
        return head + self.body(lines, arcs, calls) + ["", "totals: " + sums]

    def body(self, lines, arcs, calls):
        entries = {name: self.program.line(first) for name, first, _ in self.program.functions}
        entries.setdefault("???", ("???", 0))
        order = sorted(entries, key=lambda name: (entries[name][0], name))
        first_of = {name: first for name, first, _ in self.program.functions}
        contexts = {place[0] for place in lines} | {context for arc in arcs for context in (arc[0], arc[2])}
        rising = sorted(contexts, key=lambda context: [order.index(name) for name in context])
        functions, files, out, current = Names(), Names(), [], None
        for function in rising:
            home = entries[function[0]][0]
            rows = [(spot, None, cost) for (context, spot), cost in lines.items() if context == function]
            rows += [
                (arc[1], arc[2], cost)
                for arc, cost in arcs.items()
                if arc[0] == function and (any(cost) or arc in calls)
            ]
            # by address, if there are any, and then by file and line
            rows.sort(key=lambda row: (row[1] is not None, row[0][2:], row[0], row[1] and rising.index(row[1])))
            if not rows:
                continue
            out += [""] + ["ob=(1) " + clean(self.command[0])] * (not out)
            if home != current:
                current = home
                out.append("fl=" + files.of(home))
            out.append("fn=" + functions.of(function))
            for spot, callee, cost in rows:
                file, line = spot[:2]
                if file != current:
                    current = file
                    out.append(("fe=" if file == home else "fi=") + files.of(file))
                if callee is not None:
                    home_of_callee, entry = entries[callee[0]]
                    if home_of_callee != current:
                        out.append("cfi=" + files.of(home_of_callee))
                    begins = f"0x{first_of.get(callee[0], 0):x} " * self.by_address
                    times = calls.get((function, spot, callee), 0)
                    out += ["cfn=" + functions.of(callee), f"calls={times} {begins}{entry}"]
                out.append("".join(f"0x{address:x} " for address in spot[2:]) + f"{line} {numbers(cost)}")
        return out


# The bytes of the demonstration's file: the scene of programs of `cases_programs` reads it beside binutils.
DEMO_BYTES = 4958
DEMO_OPTIONS = {name: default for name, (_, default) in RUN_OPTIONS.items()} | {"base": "demo.out"}
# what the threads count of the nine events, by the size
LONG_DEMOS = {
    10000: {
        1: [9470056, 1890004, 1890000, 32, 14, 2, 32, 14, 2],
        2: [9470006, 1890000, 1890000, 0, 0, 2, 0, 0, 2],
        3: [9470006, 1890000, 1890000, 0, 0, 2, 0, 0, 2],
        4: [9470006, 1890000, 1890000, 0, 0, 2, 0, 0, 2],
    }
}


def demo_program(size):
    """The demonstration program, as its own model makes it: each instruction has a line."""
    code, functions, _ = demo_model.code(size)
    segments = [(0x10000, code, len(code), READ | EXECUTE), (0x20000, b"", 0x10000, READ | WRITE)]
    rows = [(addr + 4 * at, "demo.s", line + at) for _, addr, length, line in functions for at in range(length // 4)]
    return Program(segments, [function[:3] for function in functions], 0x10000, rows)


def counted_of_demo(size):
    """What each thread of the demonstration counts, without its functions."""
    machine, costs, sums = Machine(demo_program(size), [b"demo"], b"", DEMO_OPTIONS), Costs(DEMO_OPTIONS), {}
    while machine.exit is None:
        thread, pc, after, _, _, reference, branch = machine.step()
        added(sums, thread, costs.of(pc, after, reference, branch))
    return sums


class Sink:
    def __init__(self, fails):
        self.fails, self.calls, self.taken = fails, 0, b""

    def write(self, content):
        self.calls += 1
        if self.calls in self.fails:
            return False
        self.taken += content
        return True


class Script:
    def __init__(self, disk):
        self.files, self.segments, self.functions, self.disk = {}, [], [], disk
        self.fails, self.starves = {"folder": [], "out": [], "err": []}, False

    def fails_next(self):
        """Whether the next call of the folder fails."""
        return len(self.calls) + 1 in self.fails["folder"]

    def given(self, name, limit):
        """What a load gives: the content of a file, its length where it is too long, or nothing."""
        content = None if self.fails_next() else self.folder.get(name)
        size = content.size if isinstance(content, Program) else len(content or b"")
        limit = size if limit is None else limit
        is_long = isinstance(content, bytes) and size > limit
        end = "failed" if content is None else f"{size} bytes" + ", too long" * is_long
        self.calls.append(f"load {name} {limit}: {end}")
        return size if is_long else content

    def load(self, name, limit):
        content = self.given(name, limit)
        if content is None:
            raise Refusal(3, "cannot load " + clean(name.encode()))
        if isinstance(content, int):
            raise Refusal(7, f"too long: {clean(name.encode())}, {content} bytes")
        return content

    def put(self, name, lines):
        content, fails = "".join(line + "\n" for line in lines).encode(), self.fails_next()
        self.calls.append(f"put {name}: " + ("failed" if fails else f"{len(content)} bytes"))
        if fails:
            raise Refusal(4, "cannot write " + clean(name.encode()))
        self.folder[name] = content
        self.parts.append(name)

    def write(self, descriptor, content):
        if not (self.out if descriptor == 1 else self.err).write(content):
            raise Refusal(6, None)

    def work(self, words):
        found = asked(words)
        if found is None:
            return 1, USAGE
        command, options, values = found
        if command == "annotate":
            self.report(self.joined(Profile(), [(name, 67108864) for name in values]), options)
            return 0, None
        if command == "demo":
            self.demo(int(values[0]))
            return 0, None
        status = self.run(options, values)
        if command == "report":
            parts = self.joined(Profile(shown_events(options)), [(name, None) for name in self.parts])
            self.report(parts, options)
            self.look_at_events(Report(parts))
        return status

    def look_at_events(self, report):
        """Each event counts once for each group that has a function on the stack, however many frames that has."""
        names = {function: function[2] for function in report.order}
        for group, members in report.members.items():
            own = {names[function] for function in members}
            costs = [cost if not own.isdisjoint(stack) else [0] * len(cost) for stack, cost in self.ran.stood]
            assert not self.ran.stood or report.incl[group] == list(map(sum, zip(*costs)))

    def run(self, options, values):
        program = self.load(values[0], 67108864)
        refused = elf.refusal(program) if isinstance(program, bytes) else None
        if refused:
            raise Refusal(2, "elf refused: " + refused)
        program = read_program(program) if isinstance(program, bytes) else program
        data = self.load(options["input"], 16777216) if options["input"] else b""
        command = [value.encode() for value in values]
        needed = sum(len(value) + 1 for value in command)
        if sum((length >> 12) + 1 for _, _, length, _ in program.segments) > 65536 - 2048:
            raise Refusal(16, "guest memory full")
        if needed > 65536:
            raise Refusal(16, f"arguments too long: {needed} bytes")
        run = self.ran = Run(program, options, command, self.put, self.write)
        if values[0] == "frames":
            return run.frames()
        status = run.to_the_end(Machine(program, command, data, options))
        if run.segment:
            run.cut("Program termination")
        if options.get("waits") == "yes":
            self.put(options["base"] + ".waits", run.waits())
        return status

    def demo(self, size):
        """Runs the program to its exit, reads the sums of its parts again, and writes the seven lines."""
        if size in LONG_DEMOS:
            for thread, sums in LONG_DEMOS[size].items():
                self.put(f"{DEMO_OPTIONS['base']}.1-{thread}", ["summary: " + numbers(sums)])
        else:
            program = demo_program(size)
            self.ran = Run(program, DEMO_OPTIONS, [b"demo"], self.put, self.write)
            assert self.ran.to_the_end(Machine(program, [b"demo"], b"", DEMO_OPTIONS)) == (0, None)
            self.ran.cut("Program termination")
        sums = []
        for name in self.parts:
            lines = self.load(name, None).decode().splitlines()
            sums += [map(int, line.split()[1:]) for line in lines if line.startswith("summary: ")]
        totals = list(map(sum, zip(*sums)))
        lines = [f"demo {size}", f"elf {DEMO_BYTES} bytes", "end exited 0", f"steps {totals[0]}"]
        lines += [f"threads {len(sums)}", f"files {len(self.parts)}", "totals " + numbers(totals)]
        self.write(1, "".join(line + "\n" for line in lines).encode())

    def joined(self, profile, files):
        for name, limit in files:
            content, shown = self.load(name, limit), clean(name.encode())
            try:
                other = Reader().read(content)
            except Bad as bad:
                kind, line = bad.args
                raise Refusal(8, f"{shown}: {kind}" if line is None else f"{shown} line {line}: {kind}")
            if not profile.join(other):
                raise Refusal(9, f"{shown}: other events")
        return profile

    def report(self, profile, options):
        sort = profile.events[0] if options["sort"] is None else options["sort"]
        if sort not in profile.events:
            raise Refusal(1, USAGE)
        files = sorted({row[1] for row in profile.selves} - {"???"}) if options["auto"] == "yes" else []
        sources = [(file, self.given(file, 16777216)) for file in files]
        try:
            lines = Report(profile).text(sort, options["threshold"], options["tree"], sources)
        except SumLimit as limit:
            raise Refusal(9, f"sum limit: event {limit.args[0]}")
        self.write(1, "".join(line + "\n" for line in lines).encode())

    def status(self, words, folder):
        """Does a command over this folder, and tells its status."""
        self.folder, self.calls, self.parts = folder, [], []
        self.out, self.err = Sink(self.fails["out"]), Sink(self.fails["err"])
        try:
            status, message = (20, None) if self.starves else self.work(words)
        except Refusal as refusal:
            status, message = refusal.args
        if message and not self.err.write(f"cgprof: {message}\n".encode()) and status in ENDS:
            status = 6
        self.fails, self.starves = {"folder": [], "out": [], "err": []}, False
        print("status", status)

    def command(self, words):
        self.status(words, dict(self.files))
        for name, sink in (("out", self.out), ("err", self.err)):
            text = sink.taken.decode()
            if len(text) > 10000:
                print(f"{name} {len(text)} bytes")
            elif text:
                for letter, shown in ("\\", "\\\\"), ("\n", "\\n"), ("\t", "\\t"), ('"', '\\"'):
                    text = text.replace(letter, shown)
                print(f'{name} "{text}"')
        self.tell_changes()

    def command_on_disk(self, words):
        """Does a command over the real folder: what it puts stays for the next one."""
        self.status(words, self.disk)
        for call in self.calls:
            print(call)
        for name, sink in (("out", self.out), ("err", self.err)):
            print(f"{name} {sink.calls} writes, {len(sink.taken)} bytes")

    def tell_changes(self):
        for name, content in self.files.items():
            if self.folder[name] != content:
                print(name, "has changed")

    def show(self, front, name):
        if name not in self.folder:
            return print("there is no such file")
        self.show_lines(front, self.folder[name])

    def show_lines(self, front, content):
        for line in content.decode().splitlines():
            if line.startswith(front):
                print(line)

    def describe(self, word, rest):
        pieces = rest.split(" ")
        if word in ("code", "data"):
            content = b"".join(int(piece, 16).to_bytes(4, "little") for piece in pieces[1:])
            permission = READ | (EXECUTE if word == "code" else WRITE)
            self.segments.append((int(pieces[0], 16), content, len(content), permission))
        elif word == "room":
            self.segments.append((int(pieces[0], 16), b"", int(pieces[1], 16), READ | WRITE))
        elif word == "function":
            self.functions.append((pieces[0], int(pieces[1], 16), int(pieces[2], 16)))
        elif word == "program":
            self.files[rest] = Program(self.segments, self.functions, 0x10000)
            self.segments, self.functions = [], []
        elif word == "file":
            self.files[rest] = real(rest)
        elif word == "text":
            self.files[pieces[0]] = " ".join(pieces[1:]).replace("|", "\n").encode()
        elif word == "each":
            self.files[pieces[0]] = self.each(int(pieces[1]), " ".join(pieces[2:]).replace("|", "\n"))
        elif word == "keep":
            self.files[pieces[1]] = self.folder[pieces[0]]
        elif word == "drop":
            del self.files[rest]
        elif word == "zeros":
            self.files[pieces[0]] = bytes(int(pieces[1]))
        elif word == "bytes":
            self.files[pieces[0]] = bytes(int(piece, 16) for piece in pieces[1:])
        elif word == "patch":
            old, new, place = self.files[pieces[0]], bytes(int(piece, 16) for piece in pieces[3:]), int(pieces[2], 16)
            self.files[pieces[1]] = old[:place] + new + old[place + len(new) :]
        elif word == "cut":
            self.files[pieces[1]] = self.files[pieces[0]][: int(pieces[2])]
        elif word == "fail":
            self.fails[pieces[0]].append(int(pieces[1]))
        else:
            return False
        return True

    def each(self, count, text):
        head, _, text = text.partition(";")
        for number in range(count):
            shown = (f"{number:06}", f"{(number + 1) % count:06}", f"{min(number + 1, count - 1):06}", str(count - number - 1))
            head += "".join({"#": shown[0], "@": shown[1], ">": shown[2], "&": shown[3]}.get(letter, letter) for letter in text)
        return head.encode()

    def follow(self, line):
        word, space, rest = line.partition(" ")
        if line == "starve":
            self.starves = True
        elif not self.describe(word, rest):
            print(line)
            if word in ("$", "disk") and space:
                (self.command if word == "$" else self.command_on_disk)(words_of(rest))
            elif word in ("asks", "wordless"):
                print(request_text(asked(words_of(rest) if word == "asks" else [])))
            elif word == "whole":
                self.show("", rest)
            elif word == "lines":
                name, _, front = rest.partition(" ")
                self.show(front, name)
            elif word == "out":
                self.show_lines(rest, self.out.taken)


def main():
    if sys.argv[1:]:
        print(counted_of_demo(int(sys.argv[1])))
        return
    files = {name: real(name) for name in os.listdir() if os.path.isfile(name)}
    for scene in ("\n" + sys.stdin.read()).split("\nscene commands\n")[1:]:
        script = Script(files)
        for script_line in scene.splitlines():
            script.follow(script_line)


if __name__ == "__main__":
    main()
