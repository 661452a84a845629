"""What tests/large.py runs: cases, with how much memory each may take, the built program in folders of their own, and
the rows of the parts that it writes."""

import os
import resource
import subprocess
import sys
import tempfile
from collections import Counter, defaultdict

GIGABYTE = 10**9
CASES = []


def case(gigabytes=1):
    """A case, with how much memory its runs may take."""

    def keep(function):
        CASES.append((function, gigabytes * GIGABYTE))
        return function

    return keep


class Part:
    """The rows of a part: by function and position the events Ir, Dr and Dw, and by two functions the calls and those
    events."""

    def __init__(self, content):
        self.rows, self.arcs, self.totals = Counter(), defaultdict(lambda: (0, 0, 0, 0)), None
        names, calls, function, callee = {}, None, None, None
        for line in content.decode().splitlines():
            first, _, rest = line.partition("=")
            if line[:1].isdigit():
                position, costs = self.cost(line)
                if calls is None:
                    self.rows[function, position] = costs
                else:
                    old = self.arcs[function, callee]
                    self.arcs[function, callee] = tuple(map(sum, zip(old, (calls, *costs))))
                    calls = None
            elif first in ("fn", "cfn"):
                number, _, name = rest.partition(" ")
                name = names.setdefault(number, name)
                function, callee = (name, callee) if first == "fn" else (function, name)
            elif first == "calls":
                calls = int(rest.split(" ", 1)[0])
            elif line.startswith("totals: "):
                self.totals = tuple(map(int, line.split(" ")[1:4]))

    def cost(self, line):
        words = line.split(" ")
        at = 2 if words[0].startswith("0x") else 1
        position = int(words[0], 16) if at == 2 else int(words[0])
        return position, tuple(map(int, words[at : at + 3]))

    def functions(self, name=lambda name: name):
        """The events of each function alone, where rows are told apart by more than its name."""
        sums = defaultdict(lambda: (0, 0, 0))
        for (function, _), costs in self.rows.items():
            sums[name(function)] = tuple(map(sum, zip(sums[name(function)], costs)))
        return dict(sums)

    def calls(self, name):
        """The calls between functions, where these are told apart by more than their names."""
        sums = defaultdict(lambda: (0, 0, 0, 0))
        for (caller, callee), calls in self.arcs.items():
            key = name(caller), name(callee)
            sums[key] = tuple(map(sum, zip(sums[key], calls)))
        return dict(sums)


class Command:
    """The built program in a folder of its own."""

    def __init__(self, program, most):
        self.program, self.most, self.runs, self.peak = program, most, 0, 0
        self.scratch = tempfile.TemporaryDirectory()
        self.path = self.scratch.name

    def write(self, name, content):
        with open(os.path.join(self.path, name), "wb") as file:
            file.write(content)

    def read(self, name):
        with open(os.path.join(self.path, name), "rb") as file:
            return file.read()

    def limit(self):
        """A table that grows is there twice for a moment, so addresses are three times what memory is."""
        resource.setrlimit(resource.RLIMIT_AS, (3 * self.most, 3 * self.most))

    def run(self, words, status=0, message=b"", **files):
        """Does the command in a folder of these files, which is to end with this status and this line, and gives what
        it writes to the output."""
        for name in os.listdir(self.path):
            os.unlink(os.path.join(self.path, name))
        for name, content in files.items():
            self.write(name, content)
        words = words.split(" ") if isinstance(words, str) else words
        with open(os.path.join(self.path, "said"), "wb+") as out, open(os.path.join(self.path, "told"), "wb+") as err:
            child = subprocess.Popen(
                [self.program, *words], cwd=self.path, stdout=out, stderr=err, preexec_fn=self.limit
            )
            _, ended, used = os.wait4(child.pid, 0)
            child.returncode = os.waitstatus_to_exitcode(ended)
            out.seek(0), err.seek(0)
            got, said = (child.returncode, err.read()), out.read()
        wanted = (status, b"cgprof: " + message + b"\n" if message else b"")
        assert got == wanted, f"{' '.join(words)[:200]}: {got}, and not {wanted}"
        self.runs, self.peak = self.runs + 1, max(self.peak, used.ru_maxrss * 1024)
        assert self.peak <= self.most, f"{' '.join(words)[:200]}: {self.peak} bytes"
        return said

    def parts(self, base="callgrind.out."):
        return sorted(name for name in os.listdir(self.path) if name.startswith(base))

    def part(self, part=1, thread=1):
        return Part(self.read(f"callgrind.out.{part}-{thread}"))


def same(name, got, wanted):
    if got != wanted:
        more = [key for key in wanted if got.get(key) != wanted[key]][:5] if isinstance(wanted, dict) else wanted
        sys.exit(f"{name}: {str(got)[:500]}, and not {str(wanted)[:500]}: {str(more)[:300]}")
