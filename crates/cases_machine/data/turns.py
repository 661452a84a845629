#!/usr/bin/env python3
"""Says what the scenes `turns` of ../stdin have to print: `python3 turns.py < ../stdin` in this folder. The machine is the
plain model of `cases_run`, for which the ready threads are a list; what it lacks is added here: a signal that kills."""

import itertools
import pathlib
import sys

sys.dont_write_bytecode = True
folder = pathlib.Path(__file__).resolve().parents[2] / "cases_run/data"
sys.path.insert(0, str(folder))
model = {}
exec((folder / "model.py").read_text().split("\nif sys.argv[1:]:")[0], model)
End, Program = model["End"], model["Program"]


class Machine(model["Machine"]):
    """A machine whose first thread stands at the first word of the code. The break is at 0x13000."""

    def __init__(self, code, quantum, seed):
        words = b"".join(word.to_bytes(4, "little") for word in code)
        segments = [(0x10000, words, 0x3000, 7), (0x20000, b"", 0x10000, 3)]
        super().__init__(Program(segments, [], 0x10000), [], b"", {"quantum": quantum, "turns": seed})
        self.first_break = self.last_break = 0x13000
        self.roused, self.word_waited_at, self.killed = [], None, None

    def call(self, thread, pc, registers):
        if registers[17] == 131:
            raise End("killed", registers[12])
        return super().call(thread, pc, registers)

    def ended(self):
        """How the run ended, if it did."""
        if self.killed or self.exit is None:
            return self.killed or (None if self.ready else "all wait")
        return f"exited {self.exit}"

    def next(self):
        """The thread of the next step, or none where there is none."""
        if self.ended():
            return None
        thread = self.ready[0]
        pc = self.threads[thread][0]
        try:
            self.step()
        except End as end:
            kind, number = end.args
            self.killed = f"{kind} {number:#x} at {pc:#x}" if kind == "instruction" else f"{kind} {number} at {pc:#x}"
            return None
        return thread


def runs_of(numbers, step):
    """The first and the last of numbers that rise by the step, and how many they are."""
    for _, run in itertools.groupby(enumerate(numbers), lambda item: item[1] - step * item[0]):
        run = [number for _, number in run]
        yield run[0], run[-1], len(run)


def threads(numbers):
    return "".join(f" {first}" if count == 1 else f" {first}-{last}" for first, last, count in runs_of(numbers, 1))


def go(machine, most):
    ran, woken, waits, output, end = [], [], "", b"", "runs on"
    for _ in range(most):
        thread = machine.next()
        if thread is None:
            end = machine.ended()
            break
        ran.append(thread)
        woken += machine.roused
        if machine.word_waited_at is not None:
            waits += f"waits at {machine.word_waited_at:#x} "
        output += machine.told[1] if machine.told else b""
    stretches = "".join(f"{thread}*{len(list(steps))} " for thread, steps in itertools.groupby(ran))
    woken = f"wakes{threads(woken)} " if woken else ""
    output = f"output {output.hex(' ')} " if output else ""
    return stretches + woken + waits + output + end


def look(machine):
    end = machine.ended()
    runs = "" if end else f"{machine.ready[0]} at {machine.threads[machine.ready[0]][0]:#x}, "
    waits = "" if machine.word_waited_at is None else f"waits at {machine.word_waited_at:#x}, "
    counts = f"{machine.made} threads, {machine.steps} steps, "
    return runs + counts + waits + f"{len(machine.roused)} woken, {end or 'runs on'}"


is_told, code, run = False, [], None
for line in sys.stdin.read().splitlines():
    word, _, rest = line.partition(" ")
    if word == "scene":
        is_told = rest == "turns"
    if not is_told:
        continue
    if word in ("", "#", "scene"):
        print(line)
    elif word == "go":
        print(go(run, int(rest)))
    elif word == "look":
        print(look(run))
    else:
        if word == "program":
            code = []
        elif word == "machine":
            numbers = [int(number) for number in rest.split(" ")]
            run = Machine(code, numbers[0], numbers[1] if numbers[1:] else None)
        else:
            code.append(int(word, 0))
        print(word)
