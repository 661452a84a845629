#!/usr/bin/env python3
"""tests/edits.py: tells of each wrong body, in crates/NAME/must-fail/ (those that the gate tries) and crates/NAME/wrong-bodies/
(those that tests/wrong_bodies.sh tries), whether it still fits the code: each `old:` has to stand once in its file. And it
tells where code of the profiler makes want of memory of anything but std's word that memory was refused. It proves
nothing, and ends with 1 where one doesn't fit or something is told."""

import glob
import os
import re
import sys

TOP = os.path.join(os.path.dirname(os.path.abspath(__file__)), "..", "crates")


def misfit(edit):
    """Why a wrong body doesn't fit, or nothing."""
    crate = os.path.dirname(os.path.dirname(edit))
    texts, path, old, pairs = {}, None, None, 0
    with open(edit) as lines:
        for line in lines.read().split("\n"):
            word, _, rest = line.partition(":")
            if word == "file":
                path = os.path.join(crate, rest.strip())
                if not os.path.isfile(path):
                    return f"there is no {rest.strip()}"
                if path not in texts:
                    with open(path) as file:
                        texts[path] = file.read()
            elif word == "old":
                old = rest[1:]
            elif word == "new":
                found = texts[path].count(old)
                if found != 1:
                    return f"`{old.strip()}` stands {found} times"
                texts[path] = texts[path].replace(old, rest[1:])
                pairs += 1
            elif line.strip():
                return f"a line is neither file, old nor new: {line.strip()}"
    return None if pairs else "it has no pair of lines"


# Want of memory as a value that nobody refused, and where it may stand: std's two errors, which anybody can write, and
# the call of `OutOfMemory` that is for one place.
FREE = [
    (r"\bAllocError\b(?!>)(?<!fn from\(refused: AllocError)", ["byte_text/src/memory.rt"]),
    (r"\bAllocFailed\s*\{", []),
    (r"\bof_library\b", ["byte_text/src/memory.rt", "sorted_words/src/words.rt"]),
]


def free_wants():
    """Where want of memory is made without a refusal."""
    for path in sorted(glob.glob(f"{TOP}/*/src/**/*.rt", recursive=True)):
        name = os.path.relpath(path, TOP)
        if name.startswith(("bench/", "cases")):
            continue
        with open(path) as file:
            lines = file.read().split("\n")
        for number, line in enumerate(lines, 1):
            code = re.sub(r"^use .*|//.*", "", line)
            for pattern, leave in FREE:
                if name not in leave and re.search(pattern, code):
                    yield f"{name}, line {number}: want of memory without a refusal"


def main():
    edits = sorted(glob.glob(f"{TOP}/*/must-fail/*.edit") + glob.glob(f"{TOP}/*/wrong-bodies/*.edit"))
    misfits = [(os.path.relpath(edit, TOP), why) for edit in edits for why in [misfit(edit)] if why]
    for edit, why in misfits:
        print(f"{edit}: {why}")
    print(f"{len(edits) - len(misfits)} wrong bodies fit the code, {len(misfits)} don't")
    wants = list(free_wants())
    print("\n".join(wants + [f"{len(wants)} places make want of memory without a refusal"]))
    sys.exit(1 if misfits or wants else 0)


main()
