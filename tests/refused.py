#!/usr/bin/env python3
"""tests/refused.py CGPROF: refuses each request for memory of a few commands of the built program in turn, one in
each run, and says how many there were and how many changed the answer. A refusal gives status 20 or changes nothing;
after status 20 the output holds a front of what it holds otherwise, the errors at most one line more, and of the
parts some first ones stand whole, while the others are as before but the one that was being put. Then a program that
jumps to itself runs for 1,000,000 and for 9,000,000 steps: the last request that changes the answer has the same
number in both runs, since a step at a known place that pushes no frame asks for nothing."""

import os
import subprocess
import sys
import tempfile

import programs

HERE = os.path.dirname(os.path.abspath(__file__))
LINE = b"cgprof: out of memory\n"
STALE = b"of an earlier run\n"


class Refused:
    """The command with its files, and with texts under the names of its parts."""

    def __init__(self, program, shim, scratch, command, files, parts):
        self.program, self.command, self.parts = program, command, parts
        self.files = {**files, **{part: STALE for part in parts}}
        self.counted = os.path.join(scratch, "counted")
        self.environment = {"LD_PRELOAD": shim, "COUNTED": self.counted}
        self.own = self.run(0)
        self.requests = self.count()

    def run(self, number):
        return programs.run(self.program, self.command, self.files, {**self.environment, "REFUSED": str(number)})

    def count(self):
        with open(self.counted) as file:
            return int(file.read())

    def has_fronts(self, done):
        """Whether the output and the errors hold what a command without memory may leave in them."""
        lines = [text for text in (LINE, self.own.err) if text.startswith(done.err)]
        return self.own.out.startswith(done.out) and lines != []

    def has_first_parts(self, done):
        """Whether some first parts stand whole, one more may be anything, and all other names are as before."""
        files, whole = done.files, 0
        while whole < len(self.parts) and files.get(self.parts[whole]) == self.own.files[self.parts[whole]]:
            whole += 1
        free = self.parts[whole : whole + 1]
        wanted = {name: self.own.files[name] if name in self.parts[:whole] else self.files[name] for name in self.files}
        same = all(files.get(name) == wanted[name] for name in wanted if name not in free)
        return same and files.keys() <= wanted.keys()

    def try_all(self):
        """The number of the last request that changes the answer, and how many change it."""
        last, changed = 0, 0
        for number in range(1, self.requests + 1):
            done = self.run(number)
            if done == self.own:
                continue
            last, changed = number, changed + 1
            if done.status != 20 or not self.has_fronts(done) or not self.has_first_parts(done):
                sys.exit(f"{self.command}: request {number} refused: status {done.status}, {done.out!r}, {done.err!r}")
        print(f"{self.command}: {self.requests} requests for memory, {changed} refusals gave status 20,", end=" ")
        print(f"the last of them at request {last}")
        return last


def main():
    program = os.path.abspath(sys.argv[1])
    with tempfile.TemporaryDirectory() as scratch:
        shim = os.path.join(scratch, "refuse.so")
        subprocess.run(["cc", "-O2", "-shared", "-fPIC", "-o", shim, os.path.join(HERE, "refuse.c")], check=True)

        def refused(command, files, parts):
            return Refused(program, shim, scratch, command, files, parts)

        calls = {"p2": programs.elf(programs.TWO_CALLS, programs.TWO_CALLS_FUNCTIONS)}
        whole = refused("report p2", calls, ["callgrind.out.1-1"])
        assert whole.own.status == 0 and b"\ntotals: 9 0 0 1 0 0 1 0 0\n" in whole.own.files["callgrind.out.1-1"]
        whole.try_all()
        refused("report --dump-every=2 p2", calls, [f"callgrind.out.{number}-1" for number in range(1, 6)]).try_all()
        written = refused("annotate written", {"written": programs.AS_CALLGRIND_WRITES}, [])
        assert written.own.status == 0 and written.own.out == programs.REPORT_OF_IT
        written.try_all()

        last = []
        for budget in (1000000, 9000000):
            spin = refused(f"run --budget={budget} spin", {"spin": programs.elf(programs.SPIN)}, ["callgrind.out.1-1"])
            assert spin.own.status == 13 and spin.own.err == b"cgprof: budget of %d steps spent\n" % budget
            last.append(spin.try_all())
        if last[0] != last[1]:
            sys.exit("more steps ask for more memory")


main()
