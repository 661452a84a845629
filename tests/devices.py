#!/usr/bin/env python3
"""tests/devices.py CGPROF: tries the built program on real files and streams that fail, and compares its status, its
line on the errors and what it leaves with the rules: a disk that is full, output that nobody takes, a folder without
leave, names that are folders, links, devices and files that are too long. What this machine doesn't have is skipped,
and said so."""

import fcntl
import os
import resource
import shutil
import signal
import stat
import subprocess
import sys
import tempfile

import programs

NOBODY = 65534
PROGRAM_LIMIT, INPUT_LIMIT = 67108864, 16777216
USAGE = "usage: run or report [OPTIONS] PROG [ARGS], annotate [OPTIONS] FILES, demo N"
P1 = programs.elf(programs.EXIT)
P2 = programs.elf(programs.TWO_CALLS, programs.TWO_CALLS_FUNCTIONS)
WRITES = programs.elf(programs.WRITES)
BOTH = programs.elf(programs.BOTH)
PARTS = [f"callgrind.out.{number}-1" for number in range(1, 6)]
tried = 0


def report_of(name, totals, functions):
    events = "events: Ir Dr Dw I1mr D1mr D1mw ILmr DLmr DLmw"
    lines = [f"command: {name}", events, f"totals: {totals}", "sort: Ir threshold: 0", "", "-- functions", *functions]
    return "".join(line + "\n" for line in lines).encode()


REPORT_P1 = report_of("p1", "3 0 0 1 0 0 1 0 0", ["3 0 0 1 0 0 1 0 0 | 3 0 0 1 0 0 1 0 0 | ???:??? [p1]"])
REPORT_P2 = report_of(
    "p2",
    "9 0 0 1 0 0 1 0 0",
    ["9 0 0 1 0 0 1 0 0 | 5 0 0 1 0 0 1 0 0 | ???:main [p2]", "4 0 0 0 0 0 0 0 0 | 4 0 0 0 0 0 0 0 0 | ???:f [p2]"],
)
SOURCE = b"events: Ir\nfl=s.c\nfn=f\n2 5\n9 1\n"
REPORT_SOURCE = b"command: ???\nevents: Ir\ntotals: 6\nsort: Ir threshold: 0\n\n-- functions\n6 | 6 | s.c:f\n\n"


def line(text):
    return b"" if text is None else b"cgprof: " + text.encode() + b"\n"


class Folder:
    """A folder for a case, in which the program is run as a user without rights where we are the superuser."""

    def __init__(self, program, path, files=()):
        self.program, self.path, self.files = program, path, dict(files)
        self.user = {"user": NOBODY, "group": NOBODY, "extra_groups": []} if os.geteuid() == 0 else {}
        for name, content in self.files.items():
            self.write(name, content)
        self.give()

    def at(self, name):
        return os.path.join(self.path, name)

    def write(self, name, content):
        with open(self.at(name), "wb") as file:
            file.write(content)

    def read(self, name):
        with open(self.at(name), "rb") as file:
            return file.read()

    def give(self):
        for place, names, files in os.walk(self.path):
            for name in [place, *(os.path.join(place, name) for name in names + files)]:
                if self.user:
                    os.chown(name, NOBODY, NOBODY, follow_symlinks=False)

    def run(self, command, stdout=subprocess.PIPE, stderr=subprocess.PIPE, limit=None, file_limit=None):
        words = [self.program, *(command.split(" ") if isinstance(command, str) else command)]

        def before():
            if limit is not None:
                resource.setrlimit(resource.RLIMIT_AS, (limit, limit))
            if file_limit is not None:
                signal.signal(signal.SIGXFSZ, signal.SIG_IGN)
                resource.setrlimit(resource.RLIMIT_FSIZE, (file_limit, file_limit))

        return subprocess.run(words, cwd=self.path, stdout=stdout, stderr=stderr, preexec_fn=before, **self.user)

    def expect(self, name, command, status, message, out=b"", **how):
        """Does the command, which is to end with this status and this line, and to write this."""
        global tried
        done = self.run(command, **how)
        got = (done.returncode, done.stderr or b"", done.stdout if done.stdout is not None else out)
        if got != (status, line(message), out):
            sys.exit(f"{name}: {command}: {got}, and not {(status, line(message), out)}")
        tried += 1

    def holds(self, name, parts, more=()):
        """Whether the folder holds its files as they were, these parts whole, and no other name but these."""
        for kept, content in self.files.items():
            assert self.read(kept) == content, f"{name}: {kept} has changed"
        for part in parts:
            assert self.read(part).endswith(b"0\n") and b"\ntotals: " in self.read(part), f"{name}: {part} isn't whole"
        left = set(os.listdir(self.path)) - set(self.files) - set(parts) - set(more)
        assert not left, f"{name}: {left} is there"


def full_disk(new):
    """A disk of a few pages: the first parts stand, and the one that has no room stops the run."""
    folder = new({})
    if subprocess.run(["mount", "-t", "tmpfs", "-o", "size=16k", "tmpfs", folder.path], capture_output=True).returncode:
        return print("a full disk: skipped, none can be mounted")
    try:
        full = Folder(folder.program, folder.path, {"p2": P2})
        full.expect("full disk", "report --dump-every=2 p2", 4, f"cannot write {PARTS[3]}")
        full.holds("full disk", PARTS[:3], PARTS[3:4])
    finally:
        subprocess.run(["umount", folder.path], check=True)


def full_device(new):
    """The device that is always full, as a part and as the output."""
    folder = new({"p2": P2, "p1": P1, "writes": WRITES})
    os.symlink("/dev/full", folder.at(PARTS[2]))
    folder.expect("full part", "report --dump-every=2 p2", 4, f"cannot write {PARTS[2]}")
    folder.holds("full part", PARTS[:2], PARTS[2:3])
    folder = new({"p1": P1, "writes": WRITES})
    with open("/dev/full", "wb") as full:
        folder.expect("full output", "report p1", 6, None, stdout=full)
        folder.holds("full output", PARTS[:1])
        folder.expect("full output", "run writes", 6, None, stdout=full)
        folder.expect("full errors", "run writes", 6, None, b"text\n", stderr=full)
        folder.expect("full errors", "run nosuch", 3, None, stderr=full)
        folder.expect("full errors", "report p1", 0, None, REPORT_P1, stderr=full)


def limited_file(new):
    """A limit on the size of files: where its signal is ignored, a part that would be larger can't be written."""
    folder = new({"p2": P2})
    folder.expect("limited file", "run p2", 4, f"cannot write {PARTS[0]}", file_limit=64)
    folder.holds("limited file", [], PARTS[:1])


def both_streams(new):
    """A guest that writes to both streams: each has its bytes, and behind those to the errors stands the exit code."""
    global tried
    folder = new({"both": BOTH})
    costs = "13 0 0 1 0 0 1 0 0"
    report = report_of("both", costs, [f"{costs} | {costs} | ???:??? [both]"])
    for command, out in (("run both", b"one\n"), ("report both", b"one\n" + report)):
        done = folder.run(command)
        got, wanted = (done.returncode, done.stdout, done.stderr), (0, out, b"two\ncgprof: exited with 3\n")
        assert got == wanted, f"both streams: {command}: {got}, and not {wanted}"
        tried += 1
    folder.holds("both streams", PARTS[:1])


def closed_pipe(new):
    """Output that nobody takes: it is a fault, and no signal ends the program."""
    folder = new({"p1": P1, "writes": WRITES})
    for stream, command, status, out in [
        ("stdout", "report p1", 6, b""),
        ("stdout", "run writes", 6, b""),
        ("stdout", "run p1", 0, b""),
        ("stderr", "run writes", 6, b"text\n"),
        ("stderr", "run nosuch", 3, b""),
    ]:
        reader, writer = os.pipe()
        os.close(reader)
        folder.expect(f"closed {stream}", command, status, None, out, **{stream: writer})
        os.close(writer)
    folder.holds("closed pipe", PARTS[:1])


def full_pipe(new):
    """A pipe that takes a page and then refuses: the front of the report stands in it. And one that is read slowly."""
    lines = "".join(f"fn=a_function_of_number_{number}\n1 1\n" for number in range(1000)).encode()
    folder = new({"many": b"events: Ir\n" + lines})
    whole = folder.run("annotate many").stdout
    assert whole.count(b"a_function_of_number_") == 1000
    reader, writer = os.pipe()
    fcntl.fcntl(writer, fcntl.F_SETPIPE_SZ, 4096)
    fcntl.fcntl(writer, fcntl.F_SETFL, os.O_NONBLOCK)
    folder.expect("full pipe", "annotate many", 6, None, stdout=writer)
    os.close(writer)
    with open(reader, "rb") as file:
        taken = file.read()
    assert len(taken) >= 4096 and whole.startswith(taken), "full pipe: the output is no front of the report"
    reader, writer = os.pipe()
    fcntl.fcntl(writer, fcntl.F_SETPIPE_SZ, 4096)
    with subprocess.Popen([folder.program, "annotate", "many"], cwd=folder.path, stdout=writer, **folder.user) as done:
        os.close(writer)
        taken = b""
        while piece := os.read(reader, 7):
            taken += piece
    os.close(reader)
    assert (done.returncode, taken) == (0, whole), "slow pipe: the output isn't the report"


def without_leave(new):
    """Files that may not be read, parts that may not be written, and a folder in which nothing may be made."""
    folder = new({"p1": P1, "secret": P1, "s.c": b"a\nb\n", "source": SOURCE, "input": b"x"})
    for name in ("secret", "s.c", "input"):
        os.chmod(folder.at(name), 0)
    folder.expect("no leave", "run secret", 3, "cannot load secret")
    folder.expect("no leave", "run --input=input p1", 3, "cannot load input")
    folder.expect("no leave", "annotate secret", 3, "cannot load secret")
    folder.expect("no leave", "annotate --auto=yes source", 0, None, REPORT_SOURCE + b"-- no source s.c\n")
    folder.holds("no leave", [])
    folder = new({"p2": P2, PARTS[1]: b"kept\n"})
    os.chmod(folder.at(PARTS[1]), 0o444)
    folder.expect("part without leave", "report --dump-every=2 p2", 4, f"cannot write {PARTS[1]}")
    folder.holds("part without leave", PARTS[:1])
    folder = new({"p2": P2})
    os.chmod(folder.path, 0o555)
    folder.expect("folder without leave", "report p2", 4, f"cannot write {PARTS[0]}")
    folder.expect("folder without leave", "run p2 a b", 4, f"cannot write {PARTS[0]}")
    folder.holds("folder without leave", [])


def folders(new):
    """Names that are folders, and names in folders."""
    folder = new({"p1": P1, "p2": P2, "source": SOURCE})
    for name in ("folder", "s.c", PARTS[3]):
        os.mkdir(folder.at(name))
    folder.give()
    folder.expect("folder as program", "run folder", 3, "cannot load folder")
    folder.expect("folder as program", "run .", 3, "cannot load .")
    folder.expect("folder as program", "report --base=x folder/", 3, "cannot load folder/")
    folder.expect("folder as input", "run --input=folder p1", 3, "cannot load folder")
    folder.expect("folder as profile", "annotate source folder", 3, "cannot load folder")
    folder.expect("folder as source", "annotate --auto=yes source", 0, None, REPORT_SOURCE + b"-- no source s.c\n")
    folder.expect("folder as part", "report --dump-every=2 p2", 4, f"cannot write {PARTS[3]}")
    folder.expect("no folder", "run --base=nosuch/part p1", 4, "cannot write nosuch/part.1-1")
    folder.expect("no folder", "run p1/p1", 3, "cannot load p1/p1")
    folder.expect("in a folder", "report --base=folder/part p1", 0, None, REPORT_P1)
    assert os.listdir(folder.at("folder")) == ["part.1-1"] and os.listdir(folder.at(PARTS[3])) == []


def special_sources(new):
    """Sources that are no regular files: a pipe that nobody writes to, and a device without an end."""
    folder = new({"source": SOURCE})
    os.mkfifo(folder.at("s.c"))
    folder.expect("pipe as source", "annotate --auto=yes source", 0, None, REPORT_SOURCE + b"-- no source s.c\n")
    folder = new({"source": SOURCE})
    os.symlink("/dev/zero", folder.at("s.c"))
    folder.expect("device as source", "annotate --auto=yes source", 0, None, REPORT_SOURCE + b"-- no source s.c\n")


def links(new):
    """Parts that are links: the file that a link names is written, and the link stays."""
    folder = new({"p1": P1, "p2": P2})
    os.symlink("elsewhere", folder.at(PARTS[0]))
    folder.expect("link to nothing yet", "report p1", 0, None, REPORT_P1)
    folder.expect("link to a file", "report p2", 0, None, REPORT_P2)
    assert os.readlink(folder.at(PARTS[0])) == "elsewhere" and b"\ncmd: p2\n" in folder.read("elsewhere")
    folder.write("elsewhere", b"kept\n")
    os.chown(folder.at("elsewhere"), os.getuid(), os.getgid())
    os.chmod(folder.at("elsewhere"), 0o444)
    folder.expect("link without leave", "report p1", 4, f"cannot write {PARTS[0]}")
    assert folder.read("elsewhere") == b"kept\n"
    os.unlink(folder.at(PARTS[0]))
    os.symlink(PARTS[0], folder.at(PARTS[0]))
    folder.expect("link to itself", "run p1", 4, f"cannot write {PARTS[0]}")
    folder.expect("link to itself", f"annotate {PARTS[0]}", 3, f"cannot load {PARTS[0]}")
    os.unlink(folder.at(PARTS[0]))
    os.symlink("nosuch/elsewhere", folder.at(PARTS[0]))
    folder.expect("link into nothing", "run p1", 4, f"cannot write {PARTS[0]}")
    os.symlink("p1", folder.at("linked"))
    folder.expect("link to a program", "run --base=l linked", 0, None)
    folder.holds("links", ["l.1-1"], [PARTS[0], "elsewhere", "linked"])


def own_names(new):
    """Parts under the names of the program and of the input: both were read before."""
    folder = new({"p1": P1})
    shutil.copyfile(folder.at("p1"), folder.at(PARTS[0]))
    folder.give()
    report = REPORT_P1.replace(b"p1", PARTS[0].encode())
    folder.expect("program as part", f"report {PARTS[0]}", 0, None, report)
    folder.expect("program that was written over", f"run {PARTS[0]}", 2, "elf refused: not elf")
    folder.expect("input as part", f"report --input={PARTS[0]} p1", 0, None, REPORT_P1)
    folder.holds("own names", PARTS[:1])


def lengths(new):
    """Files at and above their limits, without a byte on the disk, and devices."""
    folder = new({"p1": P1, "source": SOURCE})
    for name, length in [
        ("program", PROGRAM_LIMIT),
        ("program_above", PROGRAM_LIMIT + 1),
        ("huge", 2**40),
        ("input", INPUT_LIMIT),
        ("input_above", INPUT_LIMIT + 1),
    ]:
        with open(folder.at(name), "wb") as file:
            file.truncate(length)
    folder.give()
    folder.expect("length", "run program", 2, "elf refused: not elf")
    folder.expect("length", "run program_above", 7, f"too long: program_above, {PROGRAM_LIMIT + 1} bytes")
    folder.expect("length", "run huge", 7, f"too long: huge, {2**40} bytes")
    folder.expect("length", "run --input=input p1", 0, None)
    folder.expect("length", "run --input=input_above p1", 7, f"too long: input_above, {INPUT_LIMIT + 1} bytes")
    folder.expect("length", "annotate source huge", 7, f"too long: huge, {2**40} bytes")
    os.symlink(folder.at("input_above"), folder.at("s.c"))
    folder.expect("length", "annotate --auto=yes source", 0, None, REPORT_SOURCE + b"-- source too long s.c\n")
    folder.expect("device", "run /dev/null", 2, "elf refused: short, 52 bytes needed")
    folder.expect("device", "run /dev/zero", 7, f"too long: /dev/zero, {PROGRAM_LIMIT + 1} bytes")
    folder.expect("device", "annotate /dev/null", 8, "/dev/null: no events")
    folder.expect("memory", "annotate program", 20, "out of memory", limit=50000000)
    folder.expect("memory", "run p1", 0, None)


def words(new):
    """Words that are no command, and names that don't print."""
    folder = new({"p1": P1})
    folder.expect("no words", [], 1, USAGE)
    folder.expect("no text", ["run", "p1", b"\xff"], 1, USAGE)
    folder.expect("no text", [b"\xc3", "p1"], 1, USAGE)
    folder.expect("no name", ["run", ""], 3, "cannot load ???")
    folder.expect("no name", ["run", "a\tb "], 3, "cannot load a?b?")
    folder.expect("long name", ["run", "x" * 300], 3, "cannot load " + "x" * 300)
    folder.expect("long base", ["run", "--base=" + "x" * 200, "p1"], 0, None)
    folder.holds("words", ["x" * 200 + ".1-1"])


def main():
    with tempfile.TemporaryDirectory() as scratch:
        os.chmod(scratch, os.stat(scratch).st_mode | stat.S_IXGRP | stat.S_IXOTH)
        program = os.path.join(scratch, "cgprof")
        shutil.copyfile(sys.argv[1], program)
        os.chmod(program, 0o755)

        def new(files):
            path = tempfile.mkdtemp(dir=scratch)
            os.chmod(path, 0o755)
            return Folder(program, path, files)

        streams = (full_disk, full_device, limited_file, both_streams, closed_pipe, full_pipe)
        for case in (*streams, without_leave, folders, special_sources, links, own_names, lengths, words):
            case(new)
    print(tried, "commands")


main()
