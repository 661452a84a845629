#!/usr/bin/env python3
"""Writes lists of words for the script beside it, as lines that ask what they ask for: `python3 word_lists.py`. First come
those of `word_lists.txt`, where behind each list stands what it asks for, written by hand: `usage`, or the shortest words
of the same meaning, which are the options that differ from their default, `--` and the values. The model has to agree.
Then come lists that are drawn."""

import random
import sys

sys.dont_write_bytecode = True
from words import BRANCH_EVENTS, COMMANDS, EVENTS, asked, request_text, words_of

GEOMETRIES = ["32768,8,64", "192,2,64", "128,2,64", "128,2,8", "67108864,64,1024", "16,1,16", "+128,+2,+64", "128,2,64,"]
GEOMETRIES += ["128,2", ",,", "128,0,64", "134217728,64,1024", "4294967424,2,64", "0128,02,064"]
COUNTS = ["1", "0", "2", "1000000000000", "1000000000001"]
BUDGETS = ["1", "0", "+7", "007", "1000000000000", "1000000000001", "", "+", "++1", "-1", "1e3", "2" * 20, "0" * 40 + "5", "9" * 40]
FUNCTIONS = ["main", "", "no such function"]
FLAGS = ["yes", "no", "Yes", "", "true"]
VALUES = {
    "base": ["out", "", "x" * 200, "x" * 201, "a=b", "é" * 100, "é" * 101],
    "input": ["in.txt", "", "-"],
    "budget": BUDGETS,
    "quantum": ["1", "0", "1000000", "1000001", "+10000", "4294967297", " 1", "1 "],
    "turns": ["0", "18446744073709551615", "18446744073709551616", "+0", "-1", "x"],
    "I1": GEOMETRIES,
    "D1": GEOMETRIES,
    "LL": GEOMETRIES,
    "dump-every": COUNTS,
    "dump-before": FUNCTIONS,
    "dump-after": FUNCTIONS,
    "branch-sim": FLAGS,
    "sort": (EVENTS + BRANCH_EVENTS).split(" ") + ["", "ir", "Nothing"],
    "threshold": ["0", "100", "101", "+5", "-0"],
    "tree": ["none", "caller", "calling", "both", "", "Both"],
    "auto": FLAGS,
    "waits": FLAGS,
    "separate-callers": ["1", "16", "0", "17", "+3", "007", "", "-1", "x", "4294967297"],
    "dump-instr": FLAGS,
}
RULES = {name: read for options in COMMANDS.values() for name, (read, _) in options.items()}
STRAY = ["--help", "--version", "-h", "-V", "help", "--", "-", "---", "--=", "--=x", "-x", "-budget=2", "--bud=2", "--budge", "--Budget=2",
         "--budget", "--nothing", "--nothing=1", "-é", "--é", "é", "", "=", "--budget==2", "run", "p1"]


def good(draw, name):
    return draw.choice([value for value in VALUES[name] if RULES[name](value) is not None])


def option(draw, name):
    text = good(draw, name) if draw.random() < 0.8 else draw.choice(VALUES[name])
    return [f"--{name}={text}"] if draw.random() < 0.5 else [f"--{name}", text]


def draw_list(draw):
    command = draw.choices(["run", "report", "annotate", "demo", draw.choice(STRAY)], [8, 8, 5, 2, 1])[0]
    taken = COMMANDS.get(command, {}) if draw.random() < 0.9 else VALUES
    names = [name for name in VALUES if name in taken]
    pieces = [option(draw, name) for name in draw.sample(names, min(len(names), draw.randrange(5)))]
    if draw.random() < 0.1 and pieces:
        pieces.append(option(draw, draw.choice(names)))
    if command == "demo":
        pieces.append([draw.choice(["1", "0", "100000", "100001", "+5", "007", "", "x", "9" * 20])])
    else:
        pieces += [[draw.choice(["p1", "a.c", "-", "x y", "é"])] for _ in range(draw.choice([0, 1, 1, 1, 2, 3]))]
    if draw.random() < 0.25:
        pieces.append([draw.choice(STRAY)])
    draw.shuffle(pieces)
    if draw.random() < 0.1:
        pieces.append(["--"] + [draw.choice(STRAY + ["a"]) for _ in range(draw.randrange(3))])
    return [command] + [word for piece in pieces for word in piece]


def say(words):
    """Asks what the words behind the program's own name ask for: an empty word is `%0`, and a space `~`."""
    print(" ".join(["asks"] + [word.replace(" ", "~") or "%0" for word in words]))


def main():
    with open("word_lists.txt", encoding="utf-8") as given:
        lines = given.read().splitlines()
    print("scene commands")
    print("# What words ask for (data/word_lists.py): none, the program's own name alone, and lists that were written by hand.")
    print("wordless")
    say([])
    for line, meaning in zip(lines[::2], lines[1::2]):
        same = None if meaning == "usage" else asked(words_of(meaning))
        assert request_text(asked(words_of(line))) == request_text(same), line
        say(words_of(line)[1:])
    print("# Lists that were drawn.")
    draw = random.Random(11)
    for _ in range(2000):
        say(draw_list(draw))


if __name__ == "__main__":
    main()
