#!/usr/bin/env python3
"""tools/map.py [--write]: makes docs/MAP.md from crates.txt, where a line `## LAYER` begins a layer (one with `: WHAT`
behind it has no table), and from what the root of each crate says first. It tells where the page differs; with --write
it writes it. It also tells where a crate stands on one of a layer above its own, where PROVED has its headings in
another order, and where proofs cite more of other crates' proofs, or of their inner words, than the page says: these
numbers may only fall. And it tells where more than 11 crates stand on one another, and which function has more than 40
lines beside its clauses, but for the table of the instructions. It ends with 1 where it tells something."""

import difflib
import functools
import glob
import os
import re
import sys
import textwrap

TOP = os.path.join(os.path.dirname(os.path.abspath(__file__)), "..")

PAGE = "docs/MAP.md"
MOST_CRATES, MOST_LINES, TABLE = 11, 40, "crates/rv_step/src/execution.rt: execute"
HEAD = """\
# The map

`cgprof` is a stack of *crates*. A crate's code uses nothing of those below it but their contracts; proofs cite
lemmas, too.

```
                 the command
                      |
                    laws
            __________|__________
           |                     |
 the run and its parts        reports
      _____|_____                |
     |           |               |
 counting   the machine          |
     |___________|               |
           |                     |
   files of programs             |
           |_____________________|
                      |
               what all share
```

Each crate has its lines of code, definitions and proofs, and the share of all lines that its change proves anew.
`crates.txt` says what it stands on, [WAY](WAY.md) how all work.
"""


def read(path):
    with open(os.path.join(TOP, path)) as file:
        return file.read()


def layers():
    """(layer, what it is, its crates) from the top down, and what each crate stands on."""
    found, stands = [], {}
    for line in read("crates.txt").split("\n"):
        name, _, rest = line.partition(":")
        if line.startswith("## "):
            found.append((name[3:], rest.strip(), []))
        elif line and not line.startswith("#"):
            found[-1][2].append(name)
            stands[name] = rest.split()
    return found, {name: [below for below in on if below in stands] for name, on in stands.items()}


def does(crate):
    """The first words of the crate's root, three at least, up to a comma, a colon or the end of a sentence."""
    root = f"crates/{crate}/src/lib.rt"
    if not os.path.isfile(os.path.join(TOP, root)):
        root = f"crates/{crate}/src/main.rt"
    text = " ".join(line[3:].strip() for line in read(root).split("\n") if line.startswith("//!"))
    return re.match(r"\S+ \S+ \S+.*?(?=[,:;.]( |$))", text)[0] + "."


def lines_of(crate):
    """The lines of a crate's code, definitions and proofs."""
    count = 0
    for part in ("src", "specs", "proofs"):
        for path in glob.glob(os.path.join(TOP, "crates", crate, part, "**"), recursive=True):
            count += read(path).count("\n") if path.endswith((".rt", ".antt")) else 0
    return count


def cites(stands):
    """How often files of one crate cite another's proofs, and another's inner words, each with over how many pairs."""
    found = []
    for part in (r"proofs", r"specs\.inner"):
        times, pairs = 0, set()
        for crate in stands:
            for path in glob.glob(os.path.join(TOP, "crates", crate, "**"), recursive=True):
                if path.endswith((".rt", ".antt")) and "/out/" not in path:
                    cited = re.findall(rf"\buse Rattle\.(\w+)\.{part}\.", read(path))
                    others = [other for other in cited if other in stands and other != crate]
                    times += len(others)
                    pairs |= {(crate, other) for other in others}
        found += [times, len(pairs)]
    return found


def longest_chain(stands):
    """How many crates stand on one another at most."""
    @functools.lru_cache(None)
    def height(crate):
        return 1 + max((height(below) for below in stands[crate] if below in stands), default=0)
    return max(map(height, stands))


def long_functions():
    """The functions of more lines than may be, their clauses left out."""
    head = r"(?:pub(?:\(\w+\))? )?(?:const )?fn (\w+)"
    for path in sorted(glob.glob(os.path.join(TOP, "crates/*/src/**/*.rt"), recursive=True)):
        for found in re.finditer(rf"^( *){head}(?:(?!^\1{head}).)*?^\1\{{?\}}$", read(path), re.M | re.S):
            clauses = rf"^{found[1]}    (?:requires|ensures) .*?^{found[1]}(?=\{{$)"
            lines = re.sub(clauses, "", found[0], flags=re.M | re.S).count("\n") + 1
            name = f"{os.path.relpath(path, TOP)}: {found[2]}"
            if lines > MOST_LINES and name != TABLE:
                yield f"{name} has {lines} lines"


def rounded(number):
    """A number to two digits."""
    unit = 10 ** max(0, len(str(number)) - 2)
    return f"{(number + unit // 2) // unit * unit:,}"


def all_above(stands):
    """Of each crate all that stand on it, and itself."""

    def below(crate, seen):
        for other in stands[crate]:
            if other not in seen:
                seen.add(other)
                below(other, seen)
        return seen

    above = {crate: {crate} for crate in stands}
    for crate in stands:
        for other in below(crate, set()):
            above[other].add(crate)
    return above


def page(found, stands):
    """The text of docs/MAP.md."""
    lines = {crate: lines_of(crate) for crate in stands}
    total = sum(lines.values())
    above = all_above(stands)
    text = HEAD
    for layer, says, crates in found:
        if says:
            listed = ", ".join(f"`{crate}` {rounded(lines[crate])}" for crate in crates)
            text += f"\n## {layer}\n\n" + textwrap.fill(f"{says[0].upper()}{says[1:]}: {listed}.", 118) + "\n"
            continue
        text += f"\n## [{layer}](PROVED.md#{layer.lower().replace(' ', '-')})\n\n```\n"
        for crate in crates:
            anew = str(round(100 * sum(lines[other] for other in above[crate]) / total) or "<1") + "%"
            text += f"{crate:16}{rounded(lines[crate]):>6}{anew:>5}  {does(crate)}\n"
        text += "```\n"
    text += f"\nAll {len(stands)} crates have {rounded(total)} lines.\n\n"
    says = "Proofs of one crate cite those of another {} times, over {} pairs, and its inner words {} times, over {}."
    return text + textwrap.fill(says.format(*cites(stands)), 118) + "\n"


def numbers_of_cites(text):
    """The numbers in the last sentence of a page, if it is there."""
    last = " ".join(text[text.rfind("\n\nProofs of one crate") :].split())
    return [int(number) for number in re.findall(r"\d+", last)]


def main():
    found, stands = layers()
    told = []
    at = {crate: number for number, (_, _, crates) in enumerate(found) for crate in crates}
    for crate, on in stands.items():
        for below in on if at[crate] < len(found) - 1 else []:
            if not at[crate] <= at[below] < len(found) - 1:
                told.append(f"crates.txt: {crate} stands on {below}, of a layer above")
    order = [crate for _, _, crates in found[:-1] for crate in crates]
    headings = re.findall(r"^### `(\w+)`$", read("docs/PROVED.md"), re.M)
    if headings != order:
        told.append("docs/PROVED.md: its headings are " + " ".join(headings) + "\n  and should be " + " ".join(order))
    if longest_chain(stands) > MOST_CRATES:
        told.append(f"crates.txt: {longest_chain(stands)} crates stand on one another")
    told += long_functions()
    made = page(found, stands)
    risen = [pair for pair in zip(numbers_of_cites(read(PAGE)), numbers_of_cites(made)) if pair[0] < pair[1]]
    for said, counted in risen:
        told.append(f"{PAGE}: {said} cites past a crate's contracts have become {counted}")
    if "--write" in sys.argv[1:] and not risen:
        with open(os.path.join(TOP, PAGE), "w") as file:
            file.write(made)
    else:
        lines = (read(PAGE).split("\n"), made.split("\n"))
        told += difflib.unified_diff(*lines, PAGE, "tools/map.py --write", lineterm="", n=0)
    for line in told:
        print(line)
    sys.exit(1 if told else 0)


main()
