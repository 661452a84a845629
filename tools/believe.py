#!/usr/bin/env python3
"""tools/believe.py [--write | --list]: follows the field `headline` of the clause of `profile` through the definitions
that it cites, and tells where docs/BELIEVE.md has other numbers of them, or another list of their files. With --write
it puts the numbers right, with --list it prints the definitions by file. It also tells of a definition of an inner/ that
is reached, which is none of a reader's, and of a name that stands nowhere. It ends with 1 where it tells something."""

import collections
import difflib
import glob
import os
import re
import sys

TOP = os.path.join(os.path.dirname(os.path.abspath(__file__)), "..")
# the call, the record that is its clause, and the field of that
CALL = "crates/profile_cli/src/work.rt"
CLAUSE, RECORD, FIELD = "profile_cli.specs.Profile", "IsReply", "headline"
HEAD = re.compile(r" *(?:(?:pub|abbrev|unfoldable|record|data) )+([^\s:({]+)")
PART = re.compile(r" +(?:pub )?(\w+) :")
# Of docs/BELIEVE.md: a crate, files of its specs/, and their definitions and lines
ROW = re.compile(r"^\| (\w+) \| ([\w, ]+) \| ([\d,]+) \| ([\d,]+) \|$", re.M)


def read(path):
    with open(os.path.join(TOP, path)) as file:
        return file.read()


class Module:
    """A file of definitions."""

    def __init__(self, text):
        text = re.sub(r'(^|\s)--.*|"[^"\n]*"', r"\1", text)
        text = re.sub(r"^[ \n]*\n", "", text, flags=re.M)
        self.names, self.modules = uses(text)
        self.definitions = {}  # the lines of each, by its name
        self.around = {}  # the lines of the modules with parameters that it stands in
        self.parts = {}  # the definition of each field and constructor
        self.sort(text)

    def sort(self, text):
        """Gives each line to its definition."""
        inside, current = [], None
        for line in text.split("\n"):
            depth = len(line) - len(line.lstrip())
            while inside and depth <= len(inside[-1]) - len(inside[-1].lstrip()):
                inside.pop()
            if re.match(r"(pub )?(use|mod|infix\w*) ", line):
                current = None
            elif re.match(r" *(pub )?module ", line):
                inside, current = inside + [line], None
            elif HEAD.match(line) and depth == 2 * len(inside):
                current = HEAD.match(line)[1]
                self.definitions[current], self.around[current] = [line], inside[:]
            elif current and line:
                self.definitions[current].append(line)
                if PART.match(line) and re.search(r"\b(record|data) ", self.definitions[current][0]):
                    self.parts[PART.match(line)[1]] = current


def uses(text):
    """What each name of the `use` lines stands for, as (module, name), and each name that stands for a module."""
    names = {}
    for path, listed in re.findall(r"^(?:pub |ghost )?use Rattle\.([\w.]+?)\.\{([^}]*)\}", text, re.M):
        for item in filter(None, (item.strip() for item in listed.split(","))):
            name, _, known_as = item.partition(" as ")
            names[(known_as or name).strip()] = (path, name.strip())
    modules = re.findall(r"^(?:pub |ghost )?use Rattle\.([\w.]+) as (\w+)", text, re.M)
    return names, {known_as: path for path, known_as in modules}


def bound(text):
    """The names that stand for something of their own in a clause: what patterns, functions and types bind."""
    found = re.findall(r"\blet (\S+) =", text) + re.findall(r"(\w+) ←", text)
    for names in re.findall(r"[({]((?:[^\s(){}:;,=]+ )+): ", text) + re.findall(r"λ ([^.()]+)\.", text):
        found += names.split()
    if not HEAD.match(text):
        found += [name for name in re.findall(r"[^\s(){},;:∷]+", text.split(" =")[0]) if re.match(r"[a-z_]", name)]
    return set(found)


def clauses_of(lines):
    """The lines of a definition: its type, its clauses, and the fields of a record."""
    clauses, depth = [], len(lines[0]) - len(lines[0].lstrip())
    is_record = re.search(r"\brecord ", lines[0])
    for line in lines:
        deeper = len(line) - len(line.lstrip()) > depth or line.strip()[0] in "})"
        if deeper and not (is_record and PART.match(line)):
            clauses[-1] += "\n" + line
        else:
            clauses.append(line)
    return clauses


def cited(lines, around):
    """The words of a definition that may name others, each with what stands before a point in front of it, or None."""
    clauses, around, words, fields = clauses_of(lines), "\n".join(around), set(), set()
    if re.search(r"\b(record|data) ", lines[0]):
        fields = bound(clauses[0])
    for clause in clauses:
        own = bound(clause) | bound("pub " + around) | fields
        text = re.sub(r"([{;(]\s*)\w+ = ", r"\1", clause) + "\n" + around
        if PART.match(clause):
            fields.add(PART.match(clause)[1])
            text = text.partition(":")[2]
        for found in re.finditer(r"(?:([^\s(){},;.:]*)\.)?([^\s(){},;:.]+)", text):
            front, word = found.groups()
            if front is None:
                words |= {(None, word)} - {(None, name) for name in own}
            elif front and front not in own:
                words |= {(front, word), (None, front)}
    return words


class Statement:
    """All that a clause rests on."""

    def __init__(self):
        self.modules, self.reached, self.told = {}, set(), []
        self.types, self.library = set(), collections.defaultdict(set)
        for path in glob.glob(os.path.join(TOP, "crates", "*", "specs", "**", "*.antt"), recursive=True):
            name = os.path.relpath(path, os.path.join(TOP, "crates"))[:-5].replace(os.sep, ".")
            self.modules[name] = Module(read(path))

    def name(self, module, word, by):
        """Follows a word of a module, which `by` names."""
        crate = module.split(".")[0]
        if crate + ".specs.Lib" not in self.modules:
            self.library[crate].add(word)
        elif ".specs.declared." in module:
            self.types.add(module.partition(".TheVariants")[0])
        elif module in self.modules:
            found = self.modules[module]
            word = found.parts.get(word, word) if word not in found.definitions else word
            if word in found.definitions:
                self.reach(module, word)
            elif word in found.names:
                self.name(*found.names[word], by)
            else:
                self.told.append(f"{by}: {word} does not stand in {module}")
        elif "." in module:
            self.name(*module.rsplit(".", 1), by)

    def reach(self, module, word):
        """Follows all that a definition cites."""
        if (module, word) in self.reached:
            return
        self.reached.add((module, word))
        found = self.modules[module]
        by = f"{word} of {module}"
        if ".inner." in module:
            self.told.append(f"{by} is an inner word")
        self.cite(found, module, cited(found.definitions[word], found.around[word]), by)

    def cite(self, found, module, words, by):
        """Follows words that stand in a module."""
        for front, word in words:
            if front in found.modules:
                self.name(found.modules[front], word, by)
            for known_as in (word, f"◌{word}◌") if front is None else ():
                if known_as in found.definitions:
                    self.reach(module, known_as)
                elif known_as in found.names:
                    self.name(*found.names[known_as], by)
                elif known_as in found.parts and known_as[0].isupper():
                    self.reach(module, found.parts[known_as])

    def clause(self):
        """Follows the clause, and of its record the one field."""
        text, found = read(CALL), self.modules[CLAUSE]
        clause = re.search(r"ensures \{ %s\b((?:[^{}]|\{[^{}]*\})*)\}" % RECORD, text)[1]
        fields = {PART.match(line)[1]: line for line in found.definitions[RECORD] if PART.match(line)}
        for names, module, part in (
            (Module(re.sub(r"//.*", "", text)), CALL, clause),
            (found, CLAUSE, fields[FIELD].partition(":")[2]),
        ):
            self.cite(names, module, {(None, word) for word in re.findall(r"[^\s(){},;:.]+", part)}, module)


PAGE = "docs/BELIEVE.md"
TOTAL = "In all {:,} definitions in {:,} lines, over {:,} types of the code and {:,} words of libraries."


def right_page(rests, told):
    """The page with the numbers that are right. What it misses is told."""
    left = collections.defaultdict(list)
    for module, word in rests.reached:
        left[module].append(word)

    def row(found):
        crate, files = found[1], found[2].split(", ")
        definitions = lines = 0
        for module in (f"{crate}.specs.{file}" for file in files):
            if module not in left:
                told.append(f"{PAGE}: of {module} nothing is reached, or it stands there twice")
            words = left.pop(module, [])
            definitions += len(words)
            lines += sum(len(rests.modules[module].definitions[word]) for word in words)
        return f"| {crate} | {found[2]} | {definitions} | {lines} |"

    page = ROW.sub(row, read(PAGE))
    told += [f"{PAGE}: misses {module}, with {', '.join(sorted(left[module]))}" for module in sorted(left)]
    lines = sum(len(rests.modules[module].definitions[word]) for module, word in rests.reached)
    words = sum(len(words) for words in rests.library.values())
    total = TOTAL.format(len(rests.reached), lines, len(rests.types), words)
    return re.sub(TOTAL.replace("{:,}", "[\\d,]+"), total, page)


def main():
    sys.setrecursionlimit(10000)
    rests = Statement()
    rests.clause()
    told = rests.told[:]
    made = right_page(rests, told)
    if "--list" in sys.argv[1:]:
        files = collections.defaultdict(list)
        for module, word in sorted(rests.reached):
            files[module].append(word)
        for module, words in files.items():
            print(f"{module}: {' '.join(words)}")
    elif "--write" in sys.argv[1:]:
        with open(os.path.join(TOP, PAGE), "w") as file:
            file.write(made)
    else:
        lines = (read(PAGE).split("\n"), made.split("\n"))
        told += difflib.unified_diff(*lines, PAGE, "tools/believe.py --write", lineterm="", n=0)
    for line in told:
        print(line)
    sys.exit(1 if told else 0)


main()
