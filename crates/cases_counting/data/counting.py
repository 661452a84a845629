#!/usr/bin/env python3
"""Says what ../stdin has to print: `python3 counting.py < ../stdin` in this folder. Caches are lists of all blocks that
were referred to, predictors lists of all branches, call stacks lists of frames, and accounts the lists of events that
they stand for. `python3 counting.py random` prints the lines of random events, and `python3 counting.py functions` writes
the file `functions`, whose symbols are the functions (gABI, Symbol Table)."""

import itertools
import struct
import sys

WORD, LONG = 1 << 32, 1 << 64
NAMES = ["???", "f", "f.cold", "g", "h", "main", "s"]
STARTS = {0x200: 1, 0x600: 2, 0x300: 3, 0x400: 4, 0x100: 5, 0x500: 6}
MAIN = 5


def function_of(addr):
    """The function of an address; each has 0x100 bytes."""
    return STARTS.get(addr // 0x100 * 0x100, 0)


def names_of(functions):
    """Functions, the same ones side by side as one."""
    runs = ((func, len(list(run))) for func, run in itertools.groupby(functions))
    return "/" + "".join(f"{NAMES[func]}/" if many == 1 else f"{NAMES[func]}*{many}/" for func, many in runs)


# ---- caches and predictors


def is_geometry(size, assoc, line):
    sets = size // (assoc * line) if assoc and line else 0
    return (16 <= line <= 1024 and line & (line - 1) == 0 and 1 <= assoc <= 64 and size <= 64 << 20
            and sets > 0 and sets & (sets - 1) == 0 and size == assoc * line * sets)


class Cache:
    """All blocks that were referred to, the newest last."""

    def __init__(self, geometry):
        size, assoc, line = map(int, geometry.split(":"))
        assert is_geometry(size, assoc, line)
        self.assoc, self.line, self.sets, self.history = assoc, line, size // (assoc * line), []

    def blocks(self, addr, length):
        return range(addr // self.line, (addr + length - 1) // self.line + 1)

    def kept(self, block):
        """The blocks of a set, the newest first."""
        distinct = []
        for other in reversed(self.history):
            if other % self.sets == block % self.sets and other not in distinct:
                distinct.append(other)
        return distinct[:self.assoc]

    def misses(self, addr, length):
        missed = False
        for block in self.blocks(addr, length):
            missed |= block not in self.kept(block)
            self.history.append(block)
        return missed

    def is_first(self, addr, length):
        """Whether one block is referred to, the newest of its set."""
        blocks = self.blocks(addr, length)
        return len(blocks) == 1 and self.kept(blocks[0])[:1] == [blocks[0]]


class Costs:
    """Three caches, and all branches so far where they are counted."""

    def __init__(self, geometries, branches):
        self.i1, self.d1, self.ll = map(Cache, geometries)
        self.branches, self.earlier = branches, []

    def cost(self, pc, after, branch, touch):
        cost = [1] + [0] * 12
        if self.i1.misses(pc, 4):
            cost[3], cost[6] = 1, int(self.ll.misses(pc, 4))
        if touch:
            kind, addr, length = touch
            write = int(kind == "write")
            cost[1 + write] = 1
            if self.d1.misses(addr, length):
                cost[4 + write], cost[7 + write] = 1, int(self.ll.misses(addr, length))
        if self.branches:
            cost[9:] = self.branch_cost(pc, after, branch)
        return cost

    def branch_cost(self, pc, after, branch):
        if branch == "other":
            return [0, 0, 0, 0]
        if branch == "jump":
            cost = [0, 0, 1, int(after != self.target(pc))]
        else:
            cost = [1, int((branch == "taken") != self.is_taken(pc)), 0, 0]
        self.earlier.append((pc, after, branch))
        return cost

    def is_taken(self, pc):
        """Whether a branch is predicted taken: a counter from 0 to 3 of those 65,536 bytes apart has 2 or more."""
        count = 0
        for other, _, branch in self.earlier:
            if branch != "jump" and other // 4 % 16384 == pc // 4 % 16384:
                count = min(count + 1, 3) if branch == "taken" else max(count - 1, 0)
        return count >= 2

    def target(self, pc):
        """Where the last jump went of those 2,048 bytes apart."""
        target = 0
        for other, after, branch in self.earlier:
            if branch == "jump" and other // 4 % 512 == pc // 4 % 512:
                target = after
        return target

    def is_plain(self, pc, branch, touch):
        """Whether an event changes nothing."""
        if self.branches and branch != "other":
            return False
        return self.i1.is_first(pc, 4) and (not touch or self.d1.is_first(touch[1], touch[2]))


def costly(word):
    pc, after, branch, touch = word.split(":", 3)
    if touch == "none":
        return int(pc, 16), int(after, 16), branch, None
    kind, addr, length = touch.split(":")
    return int(pc, 16), int(after, 16), branch, (kind, int(addr, 16), int(length, 16))


def digits(cost):
    return "".join(map(str, cost))


def geometry_case(words):
    for word in words:
        yield word if is_geometry(*map(int, word.split(":"))) else "refused"


def cache_case(words):
    cache = Cache(words[0])
    for word in words[1:]:
        yield "miss" if cache.misses(int(word, 16), 4) else "hit"


def caches_case(words):
    costs = Costs(words[0].split(","), False)
    for word in words[1:]:
        yield digits(costs.cost(*costly(word)))


def branches_case(words):
    costs, sums = Costs(["16:1:16"] * 3, True), [0] * 4
    for word in words:
        pc, after, branch, _ = costly(word)
        sums = [a + b for a, b in zip(sums, costs.branch_cost(pc, after, branch))]
    return map(str, [0] * 9 + sums)


def costs_case(words):
    costs = Costs(words[1].split(","), words[0] == "branches")
    for word in words[2:]:
        pc, after, branch, touch = costly(word)
        mark = "=" if costs.is_plain(pc, branch, touch) else ""
        yield digits(costs.cost(pc, after, branch, touch)) + mark


# ---- call stacks


class Stack:
    """Frames from the bottom up, of a function, the arc that entered it, its kind and the instructions at its start;
    and all that was told. A thread that hasn't begun, or has ended, has none."""

    def __init__(self):
        self.frames, self.total, self.told = [], 0, []

    def begin(self, func):
        self.frames.append([func, None, ("root", 0, 0), self.total])

    def after(self, flow, pc, after, sp):
        """One event more, which the total counts already. `last` ends the thread."""
        if flow == "last":
            return self.leave(0)
        func, call = function_of(after), ("call", (pc + 4) % WORD, sp)
        if flow in ("jump", "swap"):
            self.cut(after, sp, func)
        if flow in ("call", "swap"):
            self.enter(func, call)
        else:
            self.settle(func)

    def restart(self):
        for frame in reversed(self.frames):
            self.close(frame)
        for frame in self.frames:
            frame[3] = self.total

    def cut(self, after, sp, func):
        """What a jump leaves."""
        for place in reversed(range(len(self.frames))):
            if self.frames[place][2] == ("call", after, sp):
                return self.leave(place)
        if self.frames[self.base()][2][:2] == ("call", after):
            return self.leave(self.base())
        while self.frames[self.base()][2][0] == "call" and self.frames[self.base()][2][2] < sp:
            self.leave(self.base())
        while self.is_returned_from(sp, func) and after not in STARTS:
            self.leave(self.base())

    def is_returned_from(self, sp, func):
        """Whether the innermost call has this stack pointer, no frame of the function, and stands on one of it."""
        base = self.base()
        kind, _, pointer = self.frames[base][2]
        return (kind == "call" and pointer == sp and self.highest(func) is None
                and base > 0 and self.frames[base - 1][0] == func)

    def settle(self, func):
        """The top becomes a frame of the function."""
        place = self.highest(func)
        if place is None:
            self.enter(func, ("jump", 0, 0))
        else:
            self.leave(place + 1)

    def base(self):
        """The place of the highest frame that isn't a jump."""
        return max((p for p, frame in enumerate(self.frames) if frame[2][0] != "jump"), default=0)

    def highest(self, func):
        """The place of the highest frame of a function, from the base up."""
        places = [p for p in range(self.base(), len(self.frames)) if self.frames[p][0] == func]
        return places[-1] if places else None

    def close(self, frame):
        if frame[1]:
            self.told.append((frame[1], self.total - frame[3]))

    def leave(self, place):
        """The frames from this place on go, from the top down."""
        while len(self.frames) > place:
            self.close(self.frames.pop())

    def enter(self, func, kind):
        arc = (self.frames[-1][0], 0, 0, func) if self.frames else None
        if arc:
            self.told.append((arc, None))
        self.frames.append([func, arc, kind, self.total])

    def functions(self):
        return [frame[0] for frame in self.frames]


def sum_of(total, numbers):
    for number in numbers:
        total = (total * 31 + number) % LONG
    return total


def sum_of_frames(total, stack):
    kinds = {"root": 1, "jump": 2, "call": 3}
    for func, arc, (kind, ret, sp), start in stack.frames:
        total = sum_of(total, [func, kinds[kind], ret, sp, start, *(arc or ())])
    return total


def sum_of_told(total, stack):
    for arc, cost in stack.told:
        total = sum_of(total, [*arc, 1 if cost is None else cost + 2])
    return total


def event(word):
    thread, flow, pc, after, sp = word.split(":")
    return int(thread, 16), flow, int(pc, 16), int(after, 16), int(sp, 16)


def stack_case(words):
    stack = Stack()
    stack.begin(MAIN)
    for word in words:
        if word == "restart":
            stack.restart()
            continue
        if stack.frames:
            stack.total += 1
            stack.after(*event(word)[1:])
        yield names_of(stack.functions())
    for (caller, file, line, callee), cost in stack.told:
        front = "+" if cost is None else f"-{cost}:"
        yield f"{front}{NAMES[caller]}:{file}:{line}:{NAMES[callee]}"


class Dice:
    """The same throws at each run."""

    def __init__(self, state):
        self.state = state

    def throw(self):
        self.state = (self.state * 1664525 + 1013904223) % WORD
        return self.state >> 16

    def address(self):
        return self.throw() % 7 * 0x100 + 0x100 + [0, 4, 8, 0xc][self.throw() % 4]

    def event(self):
        flow = ["plain", "plain", "call", "call", "jump", "jump", "jump", "swap"][self.throw() % 8]
        pc, after = self.address(), self.address()
        sp = [0x7000, 0x6ff0, 0x6ff0, 0x6fe0, 0x6fe0, 0x6fd0, 0x6fc0, 0x80000000][self.throw() % 8]
        return "last" if self.throw() % 100 == 0 else flow, pc, after, sp


def walks_case(words):
    dice = Dice(int(words[0], 16))
    for _ in range(int(words[1], 16)):
        stack, total = Stack(), 0
        stack.begin(MAIN)
        for turn in range(1, 1000):
            if not stack.frames:
                break
            stack.total = turn
            stack.after(*dice.event())
            total = sum_of_frames(total, stack)
            if turn % 50 == 0:
                stack.restart()
        yield f"{sum_of_told(total, stack):x}"


def lanes_case(words):
    places = int(words[0], 16)
    dice, lanes, total = Dice(places), [Stack(), Stack(), Stack()], 0
    for turn in range(1, 20000):
        lane = lanes[dice.throw() % places]
        happened = dice.event()
        lane.total = turn
        if lane.frames:
            lane.after(*happened)
        else:
            lane.begin(function_of(happened[1]))
        for stack in lanes:
            total = sum_of_frames(total, stack)
        if turn % 1000 == 0:
            yield f"{total:x}"
        if turn % 50 == 0:
            lanes[0].total = turn
            lanes[0].restart()
    for stack in lanes:
        total = sum_of_told(total, stack)
    yield f"{total:x}"


def root_case(_):
    yield "1"


# ---- accounts


class Account:
    """The stack of a thread, and each event since the last cut as the functions of its stack, and each call."""

    def __init__(self, pc):
        self.stack, self.events, self.calls = Stack(), [], []
        self.stack.begin(function_of(pc))

    def note(self, watched, flow, pc, after, sp):
        before = len(self.stack.told)
        held = list(self.stack.frames)
        self.events.append(self.stack.functions())
        self.stack.after(flow, pc, after, sp)
        pushed = [arc for arc, cost in self.stack.told[before:] if cost is None]
        self.calls += [(arc[0], arc[3]) for arc in pushed]
        gone = [frame[0] for frame in held if not any(frame is other for other in self.stack.frames)]
        mark = "!" if any(func in watched for func in gone) else ""
        return (f"+{NAMES[pushed[0][3]]}" if pushed else ".") + mark

    def rows(self):
        """Instructions by function, calls by arc, and instructions by arc: an event counts once for each frame."""
        lines, arcs = {}, {}
        for functions in self.events:
            lines[functions[-1]] = lines.get(functions[-1], 0) + 1
            for arc in zip(functions, functions[1:]):
                arcs.setdefault(arc, [0, 0])[1] += 1
        for arc in self.calls:
            arcs.setdefault(arc, [0, 0])[0] += 1
        yield f"had:{'true' if self.events else 'false'}"
        yield from (f"{NAMES[func]}={lines[func]}" for func in sorted(lines))
        for arc in sorted(arcs):
            yield f"{NAMES[arc[0]]}>{NAMES[arc[1]]}={arcs[arc][0]}:{arcs[arc][1]}"
        self.events, self.calls = [], []


def recorder_case(words):
    accounts, watched = {}, []
    for word in words:
        kind, rest = word.split(":", 1)
        if kind == "start":
            thread, pc = (int(number, 16) for number in rest.split(":"))
            accounts.setdefault(thread, Account(pc))
        elif kind == "watch":
            watched.append(int(rest, 16))
        elif kind == "rows":
            yield from accounts[int(rest, 16)].rows()
        elif kind == "stack":
            yield names_of(accounts[int(rest, 16)].stack.functions())
        elif kind == "known":
            yield "true" if int(rest, 16) in accounts else "false"
        elif kind == "live":
            yield str(sum(max(len(account.stack.frames) - 1, 0) for account in accounts.values()))
        else:
            thread, *happened = event(word)
            yield accounts[thread].note(watched, *happened)


def scarce_case(words):
    thread, _, pc, _, _ = event(words[1])
    account = Account(pc)
    for word in words[1:] * (int(words[0], 16) + 1):
        account.note([], *event(word)[1:])
    return account.rows()


# ---- lines of random events


class Pcg:
    """PCG32, as O'Neill's paper has it, with the seeds of `rand_core`."""

    FACTOR = 6364136223846793005

    def __init__(self, state, increment):
        self.increment = increment
        self.state = (state + increment) % LONG
        self.step()

    @classmethod
    def seeded(cls, number):
        numbers = []
        for _ in range(4):
            number = (number * cls.FACTOR + 11634580027462260723) % LONG
            numbers.append(cls.mixed(number))
        return cls(numbers[0] | numbers[1] << 32, numbers[2] | numbers[3] << 32 | 1)

    @staticmethod
    def mixed(state):
        word, turn = (state >> 18 ^ state) >> 27 & WORD - 1, state >> 59
        return (word >> turn | word << (-turn & 31)) & WORD - 1

    def step(self):
        self.state = (self.state * self.FACTOR + self.increment) % LONG

    def next(self):
        word = self.mixed(self.state)
        self.step()
        return word


def random_costs(count):
    """Events at one of 256 addresses, which read or write up to four bytes or do neither, and branch or don't."""
    dice = Pcg(42, 54 << 1 | 1)
    for _ in range(count):
        word, addr = dice.next(), dice.next() % 1024
        kind = ["none", f"write:{addr:x}:{word % 4 + 1}", *[f"read:{addr:x}:{word % 4 + 1}"] * 2][word // 4 % 4]
        taken = "taken" if word // 0x10000 % 4 > 0 else "passed"
        branch = ["jump", taken, "other", "other"][word // 16 % 4]
        yield f"{word // 64 % 256 * 4:x}:{word // 0x100000 % 2 * 4:x}:{branch}:{kind}"


def random_notes(seed, count):
    """Events of three threads that begin in `main`, and now and then a cut of one."""
    entries = [(5, 0x100), (1, 0x200), (3, 0x300), (4, 0x400)]
    dice, threads = Pcg.seeded(seed), [[(5, 0, 0)] for _ in range(3)]
    yield from (f"start:{thread}:110" for thread in range(3))
    for _ in range(count):
        thread = dice.next() % 3
        calls = threads[thread]
        pc, depth = dict(entries)[calls[-1][0]] + 0x10, len(calls)
        sp, choice = 0x7000 - depth * 16, dice.next() % 3
        if choice == 0 and depth < 40:
            func, start = entries[dice.next() % 4]
            calls.append((func, pc + 4, sp))
            yield f"{thread}:call:{pc:x}:{start:x}:{sp:x}"
        elif choice == 1 and depth > 1:
            _, ret, pointer = calls.pop()
            yield f"{thread}:jump:{pc:x}:{ret:x}:{pointer:x}"
        else:
            yield f"{thread}:plain:{pc:x}:{pc:x}:{sp:x}"
        if dice.next() % 10 == 0:
            yield f"rows:{thread}"


def print_random():
    events = " ".join(random_costs(400))
    for kind in ("caches", "branches"):
        print("costs", kind, "128:2:16,96:3:16,512:4:32", events)
    for seed in range(20):
        print("recorder", *random_notes(seed, 300))


def write_functions():
    """An ELF file of one code section without bytes from 0x100 to 0x700, in no segment, and the global functions in it."""
    entries, names = b"", b"\0"
    for start, func in STARTS.items():
        entries += struct.pack("<IIIBBH", len(names), start, 0x100, 0x12, 0, 1)
        names += NAMES[func].encode() + b"\0"
    place = 84 + 4 * 40
    # sh_name, sh_type, sh_flags, sh_addr, sh_offset, sh_size, sh_link, sh_info, sh_addralign, sh_entsize
    headers = [[0] * 10, [0, 8, 6, 0x100, 0, 0x600, 0, 0, 0, 0], [0, 2, 0, 0, place, len(entries), 3, 0, 0, 16],
               [0, 3, 0, 0, place + len(entries), len(names), 0, 0, 0, 0]]
    file = struct.pack("<16sHHIIIIIHHHHHH", b"\x7fELF\1\1\1", 2, 243, 1, 0x1000, 52, 84, 0, 52, 32, 1, 40, 4, 0)
    file += struct.pack("<8I", 1, 0, 0x1000, 0x1000, 0, 0x1000, 5, 4)
    file += b"".join(struct.pack("<10I", *header) for header in headers)
    with open("functions", "wb") as out:
        out.write(file + entries + names)


def main():
    for line in sys.stdin.read().splitlines():
        kind, *words = line.split(" ")
        if kind in ("", "#"):
            print(line)
        else:
            print(kind, *globals()[kind + "_case"](words))


if __name__ == "__main__":
    {"random": print_random, "functions": write_functions}.get(" ".join(sys.argv[1:]), main)()
