#!/usr/bin/env python3
"""docs/guide.py CGPROF [--write]: tries the commands of docs/GUIDE.md and README.md as they are written, of each page
in a folder with guests/ and tools/ alone, and tells where one prints something else than the page says; with --write
the page is given what they print. CGPROF is the built program, crates/cgprof/out/cgprof. The folder is called
/home/you/cgprof where a command prints it. Then it looks whether each message of the code is in the guide's table."""

import difflib
import os
import re
import shutil
import subprocess
import sys
import tempfile

TOP = os.path.dirname(os.path.dirname(os.path.abspath(__file__)))
PAGES = ("README.md", "docs/GUIDE.md")
MESSAGES = ("crates/command_status/src/message.rt", "crates/command_status/src/refusal.rt")
BLOCK = re.compile(r"(```console\n)(.*?)(```\n)", re.S)
# A command, with the lines that a shell would ask for with `> `.
COMMAND = re.compile(r"^\$ (.*(?:\n> .*)*)$", re.M)


def tried(block, folder, environment):
    """The block, with what its commands print now."""
    lines = []
    for command in COMMAND.findall(block):
        words = ["sh", "-c", command.replace("\n> ", "\n")]
        both = {"stdout": subprocess.PIPE, "stderr": subprocess.STDOUT}
        done = subprocess.run(words, cwd=folder, env=environment, text=True, **both)
        lines.append(f"$ {command}\n{done.stdout.replace(folder, '/home/you/cgprof')}")
        if done.stdout and not done.stdout.endswith("\n"):
            lines.append("\n")
    return "".join(lines)


def tried_page(page, program):
    """The page, with what its commands print now."""
    with tempfile.TemporaryDirectory() as folder:
        os.mkdir(os.path.join(folder, "bin"))
        os.symlink(program, os.path.join(folder, "bin", "cgprof"))
        work = os.path.join(folder, "work")
        for part in ("guests", "tools"):
            shutil.copytree(os.path.join(TOP, part), os.path.join(work, part))
        path = f"{folder}/bin:{os.environ['PATH']}"
        environment = dict(os.environ, PATH=path, LC_ALL="C", PYTHONDONTWRITEBYTECODE="1")
        return BLOCK.sub(lambda m: m[1] + tried(m[2], work, environment) + m[3], page)


def read(name):
    with open(os.path.join(TOP, name), encoding="utf-8") as file:
        return file.read()


def untold():
    """The pieces of messages that aren't in the guide's table."""
    table = read("docs/GUIDE.md").partition("## What a message means")[2]
    pieces = [piece for name in MESSAGES for piece in re.findall(r'b"([^"\\]+)"', read(name))]
    return [piece for piece in pieces if re.sub("(usage:).*", r"\1", piece).strip(": ") not in table]


def main():
    program, differ, number = os.path.abspath(sys.argv[1]), False, 0
    for name in PAGES:
        page = read(name)
        now = tried_page(page, program)
        number += len(COMMAND.findall("".join(block for _, block, _ in BLOCK.findall(now))))
        if now == page:
            continue
        if sys.argv[2:] == ["--write"]:
            with open(os.path.join(TOP, name), "w", encoding="utf-8") as file:
                file.write(now)
        else:
            differ = True
            diff = difflib.unified_diff(page.splitlines(), now.splitlines(), name, "what is printed", lineterm="", n=1)
            print("\n".join(diff))
    if differ:
        sys.exit("guide.py: the pages say something else than the commands print")
    if untold():
        sys.exit(f"guide.py: no row of the guide tells {untold()}")
    print(number, "commands")


main()
