"""What the words of a command ask for. The rules are written here anew, from their text alone."""

EVENTS = "Ir Dr Dw I1mr D1mr D1mw ILmr DLmr DLmw"
BRANCH_EVENTS = " Bc Bcm Bi Bim"


def is_power(number):
    return number > 0 and number & (number - 1) == 0


def number_between(low, high):
    def read(text):
        digits = text.removeprefix("+")
        return int(digits) if digits.isascii() and digits.isdigit() and low <= int(digits) <= high else None

    return read


def geometry(text):
    read = [number_between(0, 67108864)(piece) for piece in text.split(",")]
    if len(read) != 3 or None in read:
        return None
    size, ways, line = read
    fits = is_power(line) and 16 <= line <= 1024 and 1 <= ways <= 64
    return tuple(read) if fits and size % (ways * line) == 0 and is_power(size // (ways * line)) else None


def one_of(*texts):
    return lambda text: text if text in texts else None


RUN_OPTIONS = {
    "base": (lambda text: text if 1 <= len(text.encode()) <= 200 else None, "callgrind.out"),
    "input": (lambda text: text or None, None),
    "budget": (number_between(1, 10**12), 10**9),
    "quantum": (number_between(1, 10**6), 10000),
    "turns": (number_between(0, 2**64 - 1), None),
    "I1": (geometry, (32768, 8, 64)),
    "D1": (geometry, (32768, 8, 64)),
    "LL": (geometry, (8388608, 16, 64)),
    "dump-every": (number_between(1, 10**12), None),
    "dump-before": (str, None),
    "dump-after": (str, None),
    "branch-sim": (one_of("yes", "no"), "no"),
    "dump-instr": (one_of("yes", "no"), "no"),
}
REPORT_OPTIONS = {
    "sort": (str, None),
    "threshold": (number_between(0, 100), 0),
    "tree": (one_of("none", "caller", "calling", "both"), "none"),
    "auto": (one_of("yes", "no"), "no"),
}
WATCH_OPTIONS = {"waits": (one_of("yes", "no"), "no"), "separate-callers": (number_between(1, 16), None)}
COMMANDS = {
    "run": RUN_OPTIONS | WATCH_OPTIONS,
    "report": RUN_OPTIONS | REPORT_OPTIONS,
    "annotate": REPORT_OPTIONS,
    "demo": {},
}


def shown_events(options):
    return (EVENTS + BRANCH_EVENTS * (options["branch-sim"] == "yes")).split(" ")


def words_of(text):
    """The words that a line of the script stands for, the program's own name first."""
    spaced = [piece.replace("~", " ").replace("^", "\t") for piece in text.split(" ") if text]
    return ["cgprof"] + ["x" * int(word[1:]) if word.startswith("%") else word for word in spaced]


def asked(words):
    """The command, the options and the values, or nothing."""
    if words[1:2] == [] or words[1] not in COMMANDS:
        return None
    rules, given, values, rest = COMMANDS[words[1]], {}, [], words[2:]
    while rest:
        word = rest.pop(0)
        if word == "--":
            values, rest = values + rest, []
        elif word == "-" or not word.startswith("-"):
            values.append(word)
        else:
            name, has_value, text = word.removeprefix("--").partition("=")
            if not word.startswith("--") or name not in rules or name in given:
                return None
            if not has_value:
                if not rest or rest[0].startswith("-") and rest[0] != "-":
                    return None
                text = rest.pop(0)
            given[name] = rules[name][0](text)
            if given[name] is None:
                return None
    options = {name: default for name, (_, default) in rules.items()} | given
    counted = [options.get("waits") == "yes", options.get("dump-instr") == "yes", options.get("separate-callers") is not None]
    if sum(counted) > 1:
        return None
    if words[1] == "report" and options["sort"] not in (None, *shown_events(options)):
        return None
    if words[1] == "demo" and (len(values) != 1 or number_between(1, 100000)(values[0]) is None):
        return None
    return (words[1], options, values) if values else None


# what is asked for, as the program's own values print themselves


def optional(value):
    return "None" if value is None else f'Some("{value}")' if isinstance(value, str) else f"Some({value})"


def says_yes(text):
    return str(text == "yes").lower()


def texts(values):
    return "[" + ", ".join(f'"{value}"' for value in values) + "]"


def record(name, **fields):
    return f"{name} {{ " + ", ".join(f"{field}: {text}" for field, text in fields.items()) + " }"


def cache(shape):
    size, ways, line = shape
    return record("Geometry", size=size, assoc=ways, line=line)


def job(options, values):
    return record(
        "Job",
        base=f'"{options["base"]}"',
        input=optional(options["input"]),
        budget=options["budget"],
        quantum=options["quantum"],
        seed=optional(options["turns"]),
        caches=record("Geometries", i1=cache(options["I1"]), d1=cache(options["D1"]), ll=cache(options["LL"])),
        dumps=record("Dumps", **{when: optional(options["dump-" + when]) for when in ("every", "before", "after")}),
        branches=says_yes(options["branch-sim"]),
        args=texts(values),
    )


def watching(options):
    if options["waits"] == "yes":
        return "Waits"
    if options["dump-instr"] == "yes":
        return "Addresses"
    return "Nothing" if options["separate-callers"] is None else f"Contexts({options['separate-callers']})"


def view(options):
    tree = "Off" if options["tree"] == "none" else options["tree"].capitalize()
    sort, auto = optional(options["sort"]), says_yes(options["auto"])
    return record("View", sort=sort, threshold=options["threshold"], tree=tree, auto=auto)


def request_text(request):
    if request is None:
        return "Usage"
    command, options, values = request
    if command == "demo":
        return f"Demo({int(values[0])})"
    if command == "annotate":
        return f"Annotate({texts(values)}, {view(options)})"
    if command == "run":
        return f"Run({job(options, values)}, {watching(options)})"
    positions = "AddressAndLine" if options["dump-instr"] == "yes" else "Line"
    return f"Report({job(options, values)}, {positions}, {view(options)})"
