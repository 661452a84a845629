#!/usr/bin/env python3
"""tests/guests.py CGPROF [NAME..]: builds the programs of tests/guests by guests/build.sh, runs them under the built
program CGPROF and, where it is installed, under qemu-riscv32, and tells which of them print or end otherwise than they
must: NAME.out holds what goes to the output, NAME.err what goes to the errors. With names, those programs or checks
alone. It takes the Debian packages gcc-riscv64-unknown-elf and picolibc-riscv64-unknown-elf, and qemu-user for the
second."""

import os
import re
import resource
import shutil
import subprocess
import sys
import tempfile
from dataclasses import dataclass

TOP = os.path.dirname(os.path.dirname(os.path.abspath(__file__)))
BUILD = "guests/build.sh"
SECONDS = 60

LINES = b"".join(b"line %04d ........ \n" % number for number in range(260))
NUMBER = b"  4711;"
MORE = LINES[:5000]
TURNS = ["--quantum=7", *(f"--quantum=13 --turns={seed}" for seed in range(1, 6))]
THREE = "three/main.c three/words.c three/place.c"
EVERY_WAY = ["-O0", "-Os", "-O3 -finline", "-flto", "-flto -O3 -finline"]


@dataclass
class Guest:
    """A program, and how it must end: by an exit code or by a signal. `flags` are those of each build, `options`
    cgprof's of each run. Where several threads print, the lines of each, which begin with its number, have an order,
    and those of all have none."""

    name: str
    files: str = ""
    flags: tuple = ("",)
    options: tuple = ("",)
    arguments: tuple = ()
    given: bytes = b""
    code: int = 0
    signal: int = 0
    threads: bool = False
    alone: bool = False  # what it prints is cgprof's machine's own


GUESTS = [
    Guest("constructors", arguments=("one",), flags=("", *EVERY_WAY)),
    Guest("locals", flags=("", *EVERY_WAY), options=("", "--quantum=7")),
    Guest("locals_alone", flags=("-march=rv32i", "-march=rv32im", "-march=rv32ia")),
    Guest("heap", flags=("", *EVERY_WAY), options=("", *TURNS)),
    Guest("printing", flags=("", "-O3 -finline", "-flto"), options=("", *TURNS), threads=True),
    Guest("conditions", flags=("", *EVERY_WAY), options=("", *TURNS)),
    Guest("asserts", signal=6),
    Guest("aborts", signal=6),
    Guest("signals", signal=9, flags=("", "-march=rv32i")),
    Guest("overflow", signal=11),
    Guest("code", code=33),
    Guest("cplusplus", "cplusplus/main.cc cplusplus/shape.cc", flags=("", *EVERY_WAY), options=("", "--quantum=7")),
    Guest("pure", "pure.cc", signal=6),
    Guest("jumps", flags=("", *EVERY_WAY, "-march=rv32i")),
    Guest("coroutine", flags=("", *EVERY_WAY, "-march=rv32i")),
    Guest("deep", flags=("-O0", "-O1 -fno-optimize-sibling-calls")),
    Guest("three", THREE, given=b"rose is a rose is a rose a", flags=("", "-flto -O3", "-march=rv32i")),
    Guest("calls", given=b"some", flags=("", "-march=rv32i", "-flto")),
    Guest("machine", alone=True),
    Guest("input", given=LINES + NUMBER + MORE, flags=("", "-march=rv32im")),
    Guest("names", given=b"one\ntwo\n", flags=("", "-flto")),
    Guest("ends", given=b"longline\n\nend"),
    Guest("buffers", flags=("", "-flto")),
]


class Tried:
    """How many checks there were, and how many failed."""

    def __init__(self):
        self.passed = self.failed = 0

    def check(self, title, faults):
        if faults:
            self.failed += 1
            print(f"{title}: failed")
            for fault in faults:
                print(f"    {fault}")
        else:
            self.passed += 1


def done(words, given=b"", cwd=TOP):
    """The command's status, output and errors; None for the status where it takes too long."""
    try:
        ran = subprocess.run(words, input=given, capture_output=True, cwd=cwd, timeout=SECONDS)
        return ran.returncode, ran.stdout, ran.stderr
    except subprocess.TimeoutExpired as late:
        return None, late.stdout or b"", late.stderr or b""


def build(words):
    return done(["sh", BUILD, *words])


def sources(names):
    return [f"tests/guests/{name}" for name in names.split()]


def wanted(name):
    """What the program must print to the output and to the errors."""
    texts = []
    for end in ("out", "err"):
        path = os.path.join(TOP, "tests", "guests", f"{name}.{end}")
        texts.append(open(path, "rb").read() if os.path.exists(path) else b"")
    return texts


def by_thread(text):
    """The lines of each thread, in their order."""
    lines = {}
    for line in text.split(b"\n"):
        lines.setdefault(line.split(b":")[0], []).append(line)
    return lines


def differences(guest, printed, errors):
    """What the program printed otherwise than it must."""
    faults = []
    for name, is_, must in zip(("output", "errors"), (printed, errors), wanted(guest.name)):
        if is_ != must and not (guest.threads and by_thread(is_) == by_thread(must)):
            faults.append(f"{name}: {is_[-600:]!r}, and not {must[-600:]!r}")
    return faults


def under_cgprof(cgprof, folder, program, guest, options):
    words = [cgprof, "run", f"--base={folder}/part", *options.split()]
    if guest.given:
        with open(os.path.join(folder, "given"), "wb") as file:
            file.write(guest.given)
        words.append(f"--input={folder}/given")
    status, printed, errors = done([*words, program, *guest.arguments])
    end, must = b"", 0
    if guest.signal:
        end, must = rb"cgprof: killed by signal %d at 0x[0-9a-f]{8}\n" % guest.signal, 10
    elif guest.code:
        end = rb"cgprof: exited with %d\n" % guest.code
    found = re.search(end + rb"\Z", errors)
    faults = [] if status == must and found else [f"status {status}, {errors[-200:]!r}"]
    return faults + differences(guest, printed, errors[: found.start()] if found else errors)


def under_qemu(program, guest):
    status, printed, errors = done(["qemu-riscv32", program, *guest.arguments], guest.given)
    errors = re.sub(rb"qemu: uncaught target signal .*\n\Z", b"", errors)
    must = -guest.signal if guest.signal else guest.code
    faults = [] if status == must else [f"status {status}, and not {must}"]
    return faults + differences(guest, printed, errors)


def try_guest(tried, cgprof, qemu, folder, guest):
    """Builds the program in each way, and runs each in each."""
    files = sources(guest.files or f"{guest.name}.c")
    program = os.path.join(folder, guest.name)
    for flags in guest.flags:
        title = f"{guest.name} {flags}".strip()
        status, printed, errors = build([*flags.split(), "-o", program, *files])
        if status != 0 or errors or printed != program.encode() + b"\n":
            tried.check(f"{title}, build", [f"status {status}, {printed!r}", errors.decode()])
            continue
        # each way of turns for the first build, and one that is hard on locks for the others
        for options in guest.options if flags == guest.flags[0] else guest.options[:2]:
            tried.check(f"{title}, cgprof {options}", under_cgprof(cgprof, folder, program, guest, options))
        if qemu and not guest.alone:
            tried.check(f"{title}, qemu-riscv32", under_qemu(program, guest))


def pieces(cgprof, folder):
    """Input of N bytes is read in N / 4096 calls, rounded up, and one more that finds the end."""
    given = LINES + NUMBER + MORE
    with open(os.path.join(folder, "given"), "wb") as file:
        file.write(given)
    program = os.path.join(folder, "program")
    build(["-o", program, "tests/guests/input.c"])
    words = [cgprof, "report", f"--base={folder}/reads", f"--input={folder}/given", "--tree=caller", program]
    found = re.search(rb"\n\S*streams\.c:fill \[\S*\]\n  < (\d+) ", done(words)[1])
    calls, must = int(found[1]) if found else None, (len(given) + 4095) // 4096 + 1
    return [] if calls == must else [f"{calls} pieces, and not {must}"]


def instructions(_, folder):
    """Programs for processors without them have no instructions for products and quotients, and no atomic ones."""
    faults, program = [], os.path.join(folder, "program")
    for march, names in (("rv32i", "mul div rem amo lr sc"), ("rv32im", "amo lr sc"), ("rv32ia", "mul div rem")):
        build([f"-march={march}", "-o", program, *sources(THREE)])
        code = done(["riscv64-unknown-elf-objdump", "-d", program])[1].decode()
        used = set(re.findall(r"^ *[0-9a-f]+:\t[0-9a-f]+ *\t(\S+)", code, re.M))
        others = [name for name in used if name.startswith(tuple(names.split()))]
        if others or len(used) < 20:
            faults.append(f"{march}: {others}, {len(used)} kinds of instructions")
    return faults


def builds(_, folder):
    """What build.sh prints, and what it refuses."""
    program, faults = os.path.join(folder, "program"), []

    def expect(title, words, status, must, where=2):
        got = build(words)
        if got[0] != status or not re.search(must, got[where].decode()):
            faults.append(f"{title}: {got}")

    sort = "guests/sort.c"
    expect("no file", ["-o", program, "guests/nothing.c"], 1, r"\Abuild.sh: there is no file guests/nothing.c\n\Z")
    expect("compressed", ["-march=rv32imac", "-o", program, sort], 1, "cgprof runs rv32ima, .* and not rv32imac")
    expect("no source", ["-I", "guests", "-o", program, sort], 1, "guests is no flag of one word, and no file")
    expect("no program", [sort, "-o"], 1, "takes the program's name")
    expect("no files", ["-o", program], 1, "takes the files")
    expect("a fault", ["-fnothing", "-o", program, sort], 1, "-fnothing")
    needs = "threads need the A extension: build with -march=rv32ima"
    expect("threads", ["-march=rv32im", "-o", program, "tests/guests/heap.c"], 1, needs)
    line = rf"riscv64-unknown-elf-gcc .* -T guests/guest.ld .*-o {program} guests/system/.* {sort}\n{program}\n"
    expect("the line", ["-v", "-o", program, sort], 0, rf"\A{line}\Z", 1)
    copied = os.path.join(folder, "a b's")
    os.mkdir(copied)
    for name in ("deep.c", "jumps.c"):
        shutil.copyfile(os.path.join(TOP, "tests", "guests", name), os.path.join(copied, name))
    names = [os.path.join(copied, name) for name in ("deep.c", "jumps.c")]
    expect("each its own", ["-DTEXT=\"a b\"", *names], 0, "/a b's/deep\n.*/a b's/jumps\n\\Z", 1)
    printed = build(["-v", "-o", program, sort])[1].decode().splitlines()
    os.remove(program)
    again = done(["sh", "-c", printed[0]]) if printed else None
    if not again or again[0] != 0 or not os.path.exists(program):
        faults.append(f"the line again: {again}")
    return faults


OTHERS = {"pieces": pieces, "instructions": instructions, "builds": builds}


def main():
    cgprof, names = os.path.abspath(sys.argv[1]), sys.argv[2:]
    qemu = shutil.which("qemu-riscv32")
    resource.setrlimit(resource.RLIMIT_CORE, (0, 0))
    tried = Tried()
    with tempfile.TemporaryDirectory() as folder:
        for guest in GUESTS:
            if not names or guest.name in names:
                try_guest(tried, cgprof, qemu, folder, guest)
        for title, check in OTHERS.items():
            if not names or title in names:
                tried.check(title, check(cgprof, folder))
    if not qemu:
        print("qemu-riscv32 isn't installed: under cgprof alone")
    print(f"{tried.passed} passed, {tried.failed} failed")
    sys.exit(tried.failed > 0)


main()
