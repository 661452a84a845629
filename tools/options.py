#!/usr/bin/env python3
"""tools/options.py [--write]: makes docs/cgprof.1 (the man page), docs/cgprof.bash (completion for bash) and the tables
of options in README.md from the table in crates/command_words/src/table.rt and from the texts below. It tells where a
file differs; with --write it writes them."""

import collections
import difflib
import itertools
import os
import re
import sys

TOP = os.path.join(os.path.dirname(os.path.abspath(__file__)), "..")
EVENTS = "Ir Dr Dw I1mr D1mr D1mw ILmr DLmr DLmw Bc Bcm Bi Bim".split()
# Which options each command takes
COMMANDS = {
    "run": ("RunAlone", "RunAndReport"),
    "report": ("RunAndReport", "ReportAndAnnotate"),
    "annotate": ("ReportAndAnnotate",),
    "demo": (),
}

# Of an option: what stands for its value, its default, what it says, and what the man page says besides. {} stands for
# its bounds or words. Options that stand beside each other with one text share it.
Says = collections.namedtuple("Says", "value default text more")
CACHE = Says(
    "SIZE,WAYS,LINE",
    "`32768,8,64`",
    "the first caches, of instructions and data, in bytes, ways and bytes",
    "LINE is a power of two from 16 to 1,024, WAYS from 1 to 64, and SIZE their product times a power of two, at most "
    "67,108,864.",
)
CUT = Says(
    "FUNCTION",
    "none",
    "a part ends before, or after, a call of it",
    "It has the whole name, without its file; a name that no function has does nothing. The first 4,095 cuts count.",
)
SAYS = {
    "base": Says(
        "NAME",
        "`callgrind.out`",
        "how the names of parts begin, {}",
        "Parts of other runs under these names stay.",
    ),
    "input": Says(
        "FILE",
        "empty",
        "the guest's input, at most 16,777,216 bytes",
        "`/dev/stdin` passes on the input of cgprof itself.",
    ),
    "budget": Says("STEPS", "10^9", "the most steps, {}", "A spent budget ends the run, and its parts are written."),
    "quantum": Says("STEPS", "10,000", "the steps of a turn, {}", "Threads take turns, one at a time."),
    "turns": Says("SEED", "in order", "a seed that draws the next thread", "A number from {}."),
    "I1": CACHE,
    "D1": CACHE,
    "LL": Says("SIZE,WAYS,LINE", "`8388608,16,64`", "the last cache", "It is asked where a first cache misses."),
    "branch-sim": Says("WORD", "`no`", "{}: count branches too", "The events are Bc, Bcm, Bi and Bim."),
    "dump-every": Says(
        "STEPS",
        "none",
        "a part ends after so many, {}",
        "Parts that have ended stay, whatever stops the run.",
    ),
    "dump-before": CUT,
    "dump-after": CUT,
    "sort": Says("EVENT", "the first", "the event to sort by", "It is one that the files have."),
    "threshold": Says(
        "PERCENT",
        "0",
        "the least share of it to be shown, {}",
        "A function is shown where its inclusive cost is at least so many percent of the total.",
    ),
    "tree": Says("WORD", "`none`", "the calls to show: {}", "They stand by function, with their number and cost."),
    "auto": Says(
        "WORD",
        "`no`",
        "{}: show source texts",
        "They are read from the files that the compiler noted, of at most 16,777,216 bytes each.",
    ),
    "waits": Says(
        "WORD",
        "`no`",
        "{}: what waiting cost, as `BASE.waits`",
        "It is a text behind the parts, and no profile.",
    ),
    "separate-callers": Says(
        "N",
        "none",
        "costs by up to N callers, {}",
        "A function's name has those of its callers behind it.",
    ),
    "dump-instr": Says("WORD", "`no`", "{}: a row for each instruction", "Each has its address before its line."),
}


def read(name):
    path = os.path.join(TOP, name)
    if not os.path.exists(path):
        return ""
    with open(path, encoding="utf-8") as file:
        return file.read()


class Option:
    """A row of the table, with its texts."""

    def __init__(self, name, takers, kind):
        self.name, self.takers, self.words = name, takers, []
        kind, _, rest = kind.partition("(")
        bounds = " to ".join(spoken(number) for number in re.findall(r"[0-9][0-9_]*|u64::MAX", rest))
        if kind in ("OneOf", "YES_OR_NO"):
            self.words = re.findall(r'"(\w+)"', rest) or ["yes", "no"]
            bounds = " or ".join(", ".join(f"`{word}`" for word in self.words).rsplit(", ", 1))
        elif kind == "Sized":
            bounds += " bytes"
        self.value, self.default, text, more = SAYS[name]
        self.text, self.more = text.format(bounds), more.format(bounds)


def spoken(number):
    """A number of the table as it is written in a text."""
    digits = number.replace("_", "")
    if digits == "u64::MAX":
        return "2^64 - 1"
    return f"10^{len(digits) - 1}" if re.fullmatch(r"10{8,}", digits) else f"{int(digits):,}"


def table():
    text = read("crates/command_words/src/table.rt")
    row = r'OptionRow \{\s*name: "([\w-]+)",\s*takers: Takers::(\w+),\s*kind: (?:Kind::)?(\w+(?:\(.*?\))?),\s*\}'
    options = [Option(*found) for found in re.findall(row, text, re.S)]
    number = int(re.search(r"static OPTIONS: \[OptionRow; (\d+)\]", text)[1])
    if len(options) != number or {option.name for option in options} != SAYS.keys():
        sys.exit(f"options.py: {len(options)} of {number} options were read, and there are texts for {len(SAYS)}")
    return options


def grouped(options, *takers):
    """The options with these takers, those beside each other with one text together."""
    shown = [option for taker in takers for option in options if option.takers == taker]
    return [list(group) for _, group in itertools.groupby(shown, key=lambda option: (option.value, option.text))]


def readme(options):
    """The README with its tables of options."""
    page = page_with(read("README.md"), options, "`run` and `report`", "RunAndReport", "RunAlone")
    return page_with(page, options, "`report` and `annotate`", "ReportAndAnnotate")


def page_with(page, options, title, *takers):
    rows = [f"| option of {title} | what it says | default |", "|---|---|---|"]
    for group in grouped(options, *takers):
        names = ", ".join(f"`--{option.name}={option.value}`" for option in group)
        alone = " (`run` alone)" if group[0].takers == "RunAlone" else ""
        rows.append(f"| {names}{alone} | {group[0].text} | {group[0].default} |")
    return re.sub(rf"(?m)^\| option of {re.escape(title)} .*\n(\|.*\n)*", lambda _: "\n".join([*rows, ""]), page)


def roff(text):
    """A text as roff takes it, what stands in backquotes bold."""
    text = text.replace("\\", r"\e").replace("-", r"\-").replace("'", r"\(aq").replace("^", r"\(ha")
    text = re.sub(r"\[([^]]*)\]\([^)]*\)", r"\1", re.sub(r"`([^`]*)`", r"\\fB\1\\fR", text))
    return "\n".join(rf"\&{line}" if line.startswith(".") else line for line in text.splitlines())


def described(options, *takers):
    """The paragraphs of the man page on the options with these takers."""
    paragraphs = []
    for group in grouped(options, *takers):
        names = [rf"\fB{roff(f'--{option.name}')}\fR=\fI{roff(option.value)}\fR" for option in group]
        first = group[0]
        text = f"{first.text[0].upper()}{first.text[1:]}; by default {first.default}.\n{first.more}"
        paragraphs.append(".TP\n" + "\n.TQ\n".join(names) + "\n" + roff(text))
    return "\n".join(paragraphs)


def statuses():
    """The exit statuses, as the README's table has them."""
    rows = re.findall(r"(?m)^\| (\d+) \| (.*) \|$", read("README.md"))
    return "\n".join(f".TP\n\\fB{number}\\fR\n{roff(text)}" for number, text in rows)


def man(options):
    page = MAN.replace("@STATUSES@", statuses())
    for takers in ("RunAndReport", "RunAlone", "ReportAndAnnotate"):
        page = page.replace(f"@{takers}@", described(options, takers))
    return page


MAN = r""".\" Made by tools/options.py.
.TH CGPROF 1 "" "cgprof 1" "User Commands"
.SH NAME
cgprof \- count what each function, line and call of a RISC\-V program costs
.SH SYNOPSIS
.B cgprof run
.RI [ OPTIONS ] " PROG " [ ARGS ]
.br
.B cgprof report
.RI [ OPTIONS ] " PROG " [ ARGS ]
.br
.B cgprof annotate
.RI [ OPTIONS ] " FILES"
.br
.B cgprof demo
.I N
.SH DESCRIPTION
.B cgprof
runs
.IR PROG ,
a static ELF file for 32\-bit RISC\-V (RV32IMA, ABI ilp32), instruction by instruction, and counts instructions, data
accesses, cache misses and branches of each function, line and call.
It writes a part file in the format of Callgrind for each thread and each part of the run.
.TP
.B run
runs
.I PROG
and writes its part files
.IR BASE . PART \- THREAD .
.TP
.B report
does the same, and prints the report on them behind what
.I PROG
wrote.
.TP
.B annotate
prints the report on part files, or on files that Callgrind wrote.
.TP
.B demo
runs the demonstration program of size
.I N
(1 to 100,000; 10,000 makes 37,880,074 steps), whose part files are
.BR demo.out .* ,
and prints seven lines on it.
It takes no options.
.PP
Names of files are as they are seen from the current folder.
.I PROG
reads as its input what
.B \-\-input
names.
.SH OPTIONS
An option is written
.BI \-\- NAME = VALUE
or
.BI \-\- NAME " VALUE" ,
once, at any place behind the command.
Behind the word
.B \-\-
every word is a value, so
.I ARGS
that begin with a dash stand there.
.SS Of run and report
@RunAndReport@
.SS Of run alone
@RunAlone@
.PP
At most one of
.BR \-\-waits=yes ,
.B \-\-separate\-callers
and
.B \-\-dump\-instr=yes
may stand in one command.
.SS Of report and annotate
@ReportAndAnnotate@
.SH EXIT STATUS
@STATUSES@
.PP
After each status from 10 to 15 the parts stand with all events before that end.
A line on the errors says how the run ended, if not by an exit with the code 0.
.SH EXAMPLES
.TP
.B cgprof run \-\-base=sort.out guests/sort
writes
.BR sort.out.1\-1 .
.TP
.B cgprof annotate \-\-tree=both \-\-threshold=5 sort.out.1\-1
prints which functions cost a twentieth of the run or more, who called them and whom they called.
.TP
.B kcachegrind sort.out
shows all parts of that base.
.SH NOTES
A run writes its own parts and deletes none; give each run a base of its own.
A run without a step writes no part.
Numbers may have a + in front and leading zeros.
Counts are the same in each run with the same program, arguments, input and options.
.SH SEE ALSO
.BR valgrind (1),
.BR callgrind_annotate (1),
.BR kcachegrind (1);
the repository's docs/GUIDE.md
"""

BASH = """# Completion of cgprof's words for bash, made by tools/options.py: . docs/cgprof.bash
_cgprof() {
    local word=${COMP_WORDS[COMP_CWORD]} before=${COMP_WORDS[COMP_CWORD - 1]} option= names=
    COMPREPLY=()
    if ((COMP_CWORD == 1)); then
        COMPREPLY=($(compgen -W "@COMMANDS@" -- "$word"))
        return
    fi
    # The word `--NAME=VALUE` comes as three words.
    if [[ $word == "=" ]]; then
        option=$before word=
    elif [[ $before == "=" ]]; then
        option=${COMP_WORDS[COMP_CWORD - 2]}
    elif [[ $before == --?* ]]; then
        option=$before
    fi
    case $option in
@VALUES@
    esac
    case ${COMP_WORDS[1]} in
@NAMES@
    esac
    if [[ $word == -* && -z $option ]]; then
        COMPREPLY=($(compgen -W "$names" -- "$word"))
        compopt -o nospace
    else
        compopt -o filenames
        mapfile -t COMPREPLY < <(compgen -f -- "$word")
    fi
}
complete -F _cgprof cgprof
"""


def bash(options):
    values, others, names = [], [], []
    for option in options:
        words = EVENTS if option.name == "sort" else option.words
        if words:
            values.append(f'    --{option.name}) COMPREPLY=($(compgen -W "{" ".join(words)}" -- "$word")); return ;;')
        elif option.value not in ("FILE", "NAME"):
            others.append(f"--{option.name}")
    values.append(f"    {' | '.join(others)}) return ;;")
    for command, takers in COMMANDS.items():
        words = " ".join(f"--{option.name}=" for option in options if option.takers in takers)
        names.append(f'    {command}) names="{words}" ;;' if words else f"    {command}) return ;;")
    page = BASH.replace("@COMMANDS@", " ".join(COMMANDS))
    return page.replace("@VALUES@", "\n".join(values)).replace("@NAMES@", "\n".join(names))


def main():
    options, differ = table(), False
    for name, make in [("README.md", readme), ("docs/cgprof.1", man), ("docs/cgprof.bash", bash)]:
        made, now = make(options), read(name)
        if made == now:
            continue
        if sys.argv[1:] == ["--write"]:
            with open(os.path.join(TOP, name), "w", encoding="utf-8") as file:
                file.write(made)
        else:
            differ = True
            diff = difflib.unified_diff(now.splitlines(), made.splitlines(), name, "the table", lineterm="", n=0)
            print("\n".join(diff))
    if differ:
        sys.exit("options.py: these files differ from the table of options; --write writes them")
    print(len(options), "options")


main()
