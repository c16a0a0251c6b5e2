"""Declarations, right ones and bad ones, at the limits of what may be declared too, each with the line and the text of its first fault,
or None. Most are lists of lines.
"""
HEADER, SECOND_HEADER = "workbench 1", "workbench 2"
# The most premises, and the most members of a set, by the header.
MOST = {HEADER: (64, 64), SECOND_HEADER: (512, 128)}
AROUND_LIMITS = [63, 64, 65, 127, 128, 129, 255, 256, 257, 511, 512, 513, 600]
SYNTAX, DUPLICATE, UNKNOWN, ARGUMENTS, LIMIT, END = (
    "syntax", "duplicate name", "unknown name", "wrong arguments", "limit", "missing end",
)
EIGHT = "a bool b bool c bool d bool e bool f bool g bool h bool"
NINE = f"compound c {EIGHT} i"

# The line after the header, by the first fault of the text. This line has the fault.
SECOND_LINES = {
    SYNTAX: [
        "user Ann", "user under", "user ann bob", "premise p of", "user caf\u00e9", "user abcdefghijklmnopqrstuvwxyz0123456",
        "compound", "compound c p", "compound c p interval q", "compound 9 p interval", "compound C p interval",
        "compound end p interval", "compound c 9 interval", "compound c under interval", "compound c p interval 9 zzz",
        "compound adder p", "compound adder 9 interval", "compound caf\u00e9 p interval", "end", "end x", "local x interval",
        "adder x x x", "copy", HEADER, SECOND_HEADER, "workbench", "workbench 3",
    ],
    DUPLICATE: [
        "compound adder", "compound adder p interval", "compound at_most p zzz", "compound sum p interval",
        "compound product p interval", "compound conditional p interval", "compound c p interval p interval",
        "compound c p interval q bool p exact", "compound c p zzz p zzz", f"compound c {EIGHT} a bool",
    ],
    UNKNOWN: [
        "premise p of eve", "premise p of EVE", "cell x whole", "compound c p zzz", "compound c p INTERVAL",
        "compound c p interval q c", f"{NINE} zzz",
    ],
    ARGUMENTS: ["compound c"],
    LIMIT: [f"{NINE} bool"],
}

# The third line, after one that declares the set `mood`; none if there is no fault.
SET_LINES = {
    SYNTAX: ["set", "set Colour red green", "set colour red 9", "set colour red under", "set bool 9 9", "set none"],
    DUPLICATE: [
        "set interval red green", "set exact red green", "set bool red green", "set sign red", "set mood red green",
        "set colour red red", "set colour red green blue green",
    ],
    ARGUMENTS: ["set one m", "set empty"],
    None: ["set colour colour mood"],
}

# The third line, within a compound; none if there is no fault.
INNER_LINES = {
    SYNTAX: [
        "copy", "zzz", "user", "end x", "end end", "local", "local d", "local d interval x", "local 9 interval",
        "local end interval", "local 9 zzz", "copy p caf\u00e9",
    ],
    DUPLICATE: ["local p interval", "local q interval", "local p zzz"],
    UNKNOWN: [
        "user ann", HEADER, SECOND_HEADER, "cell x interval", "compound d x interval", "c p q r", "Copy p p", "local d zzz",
        "copy p z", "copy z p", "copy p interval", "adder p z", "zzz p", "adder p p p p p p p p p z",
    ],
    ARGUMENTS: [
        "copy p", "copy p q", "adder p p", "adder p p p p", "adder p q p", "adder p p r", "adder p p p p p p p p p p",
        "at_most p p p", "switch q r p", "switch p r r", "sum p p", "sum p p p p", "product p p q", "conditional p p p p",
        "conditional q r r r",
    ],
    None: [
        "", "# end", " copy\tp p \r", "copy q q", "adder p p p", "at_most p p q", "switch q r r", "inverter q q", "sum p p p",
        "product p p p", "conditional q p p p", "local c interval", "local copy bool",
    ],
}

# First lines that are no header, and headers between blanks.
NO_HEADERS = [
    "workbench", "workbench 0", "workbench 3", "workbench 9", "workbench 00", "workbench 01", "workbench 02", "workbench 10",
    "workbench 11", "workbench 12", "workbench 20", "workbench 22", "workbench -1", "workbench -2", "workbench +2", "workbench 1.",
    "workbench 2.0", "workbench two", "workbench 1 x", "workbench 2 x", "workbench 1 1", "workbench 1 2", "workbench 2 2",
    "workbench 2 #", "workbench1", "workbench2", "workbench,2", "Workbench 2", "workbench_ 2", "workbenc 2", "workbench 2\u00e9",
    "workbench \u00b2", "2", "2 workbench", "version 2", "user 2", "cell 2",
]
HEADERS = ["workbench 1", "workbench 2", " workbench 1 ", "\tworkbench \t 2\r", "workbench  1\r", "\r workbench\r2"]

# Lines, and their first fault, if they have one.
TEXTS = [
    ([], (1, SYNTAX)),
    (["", "# nothing"], (3, SYNTAX)),
    (["user ann"], (1, SYNTAX)),
    ([HEADER, "user ann", "user ann"], (3, DUPLICATE)),
    ([HEADER, "premise p", "premise p of eve"], (3, DUPLICATE)),
    ([HEADER, "cell x interval", "cell x whole"], (3, DUPLICATE)),
    ([HEADER, "cell x colour", "set colour red green"], (2, UNKNOWN)),
    (["compound c p interval"], (1, SYNTAX)),
    ([HEADER, "compound c p interval"], (3, END)),
    ([HEADER, "compound c p interval", "adder p p p", "", "#"], (6, END)),
    ([HEADER, "compound c p interval", "end"], None),
    ([HEADER, "compound c p interval", "end", "end"], (4, SYNTAX)),
    ([HEADER, "compound c p interval", "end", "copy p p"], (4, SYNTAX)),
    ([HEADER, "compound c p interval", "end", "compound c q bool"], (4, DUPLICATE)),
    ([HEADER, "compound a p interval", "b p", "end", "compound b p interval", "end"], (3, UNKNOWN)),
    ([HEADER, "compound a p interval", "end", "compound b p interval", "a p", "end"], None),
    ([HEADER, "compound a p interval", "end", "compound b p bool", "a p", "end"], (5, ARGUMENTS)),
    ([HEADER, "compound a p interval", "end", "compound b p interval", "a p p", "end"], (5, ARGUMENTS)),
    ([HEADER, "compound c p bool", "local d bool", "local d bool"], (4, DUPLICATE)),
    ([HEADER, "compound c p bool", "copy p d", "local d bool"], (3, UNKNOWN)),
    (
        [HEADER, "compound a p bool", "local d bool", "copy p d", "end", "compound b p exact", "local d exact", "copy d p", "end"],
        None,
    ),
    ([HEADER, "compound user p bool", "end", "user ann", "compound c p bool", "user p", "end"], None),
    ([HEADER, "compound c p mood", "end", "set mood good bad"], (2, UNKNOWN)),
    ([HEADER, "set mood good bad", "set tone good bad", "compound c p mood q tone", "copy p q"], (5, ARGUMENTS)),
    # Compounds have names of their own.
    (
        [HEADER, "user a", "premise b", "set c x y", "cell d interval", "compound a p bool", "end", "compound b p bool", "end",
         "compound c p c", "end", "compound d p bool", "end", "compound interval p interval", "end"],
        None,
    ),
]


def numbered(first, rest, count, header=HEADER):
    """A header, and so many lines `FIRST k REST`."""
    return [header, *(f"{first}{number}{rest}" for number in range(count))]


def doubled(line):
    """Nine compounds: the first has this line, each other calls the one before it twice. The last expands to 256 of the line."""
    lines = [HEADER, "compound c0 p bool q bool", line, "end"]
    for number in range(8):
        lines += [f"compound c{number + 1} p bool q bool", f"c{number} p q", f"c{number} p q", "end"]
    return lines


def small():
    """Texts in which one line is tried, and what they come to."""
    for why, lines in SECOND_LINES.items():
        yield from (([HEADER, line], (2, why)) for line in lines)
    for why, lines in SET_LINES.items():
        yield from (([HEADER, "set mood good bad", line], why and (3, why)) for line in lines)
    begun = [HEADER, "compound c p interval q bool r exact"]
    for why, lines in INNER_LINES.items():
        yield from (([*begun, line, " end\t"], why and (3, why)) for line in lines)
        yield from (([*begun, line], (3, why) if why else (4, END)) for line in lines)
    yield from TEXTS


def headers():
    """First lines that are a header, and such that are none, alone and with lines around them."""
    for header in HEADERS:
        yield [header], None
        yield ["", "# workbench 3", header, "user ann"], None
        yield from (([header, second], (2, SYNTAX)) for second in [*HEADERS, "workbench", "workbench 3"])
        yield [header, "compound c p bool", header], (3, UNKNOWN)
        yield [header, "compound workbench p bool", "end", "compound c p bool", "workbench p", "end"], None
    for line in NO_HEADERS:
        yield [line], (1, SYNTAX)
        yield ["", "#", line, "user ann"], (3, SYNTAX)
        yield [line, SECOND_HEADER], (1, SYNTAX)


def most_premises():
    """Texts with as many premises as may be under each header, and with other numbers of them."""
    for header, (most, _) in MOST.items():
        for rest in ("", " of ann"):
            begun = [header, "user ann", "", *numbered("premise p", rest, most)[1:]]
            line = len(begun) + 1
            yield begun, None
            yield [*begun, "cell x interval", "user bob", "set s a b", "compound c p s", "end"], None
            for more, why in [
                ("premise more", LIMIT), ("premise more of ann", LIMIT), (f"premise p{most}{rest}", LIMIT),
                ("premise p0", DUPLICATE), (f"premise p{most - 1} of ann", DUPLICATE), ("premise more of eve", UNKNOWN),
                ("premise More", SYNTAX),
            ]:
                yield [*begun, more], (line, why)
                yield [*begun, "#", "cell x interval", more, "premise p"], (line + 2, why)
        for count in AROUND_LIMITS:
            yield numbered("premise p", "", count, header), (most + 2, LIMIT) if count > most else None


def most_members():
    """Texts with sets of as many members as may be under each header, and of other numbers of them."""
    for header, (_, most) in MOST.items():
        fewer = "set big" + "".join(f" m{number}" for number in range(most - 1))
        whole, more = f"{fewer} m{most - 1}", f"{fewer} m{most - 1} m{most}"
        for line, why in [
            ("set big", ARGUMENTS), ("set big m", ARGUMENTS), ("set big m n", None), (fewer, None), (whole, None),
            (more, LIMIT), (f"{whole} m0", DUPLICATE), (f"{fewer} m0", DUPLICATE), (f"{more} m{most}", DUPLICATE),
            (f"{more} more m1", DUPLICATE), (more.replace("big", "bool"), DUPLICATE), (f"{more} under", SYNTAX),
            (f"{more} 9", SYNTAX),
        ]:
            yield [header, line], why and (2, why)
            yield [header, "set mood good bad", line, "cell x mood"], why and (3, why)
        sets = [whole.replace("big", f"s{number}") for number in range(32)]
        yield [header, *sets, *(f"cell c{number} s{number}" for number in range(32))], None
        yield [header, *sets, "set more a b"], (34, LIMIT)
        yield [header, *sets, "set more a"], (34, ARGUMENTS)
        for count in AROUND_LIMITS:
            members = "".join(f" m{number}" for number in range(count))
            yield [header, f"set big{members}"], (2, LIMIT) if count > most else None


def limits():
    """Texts that declare as much as may be under each header, and one thing more."""
    yield [HEADER, f"compound c {EIGHT}", "end"], None
    for first, rest, most in [("user u", "", 64), ("set s", " a b", 32), ("cell c", " interval", 1024)]:
        yield numbered(first, rest, most), None
        yield numbered(first, rest, most + 1), (most + 2, LIMIT)
    compounds = [line for number in range(64) for line in (f"compound c{number} p bool", "end")]
    yield [HEADER, *compounds], None
    for last, why in [
        (["compound c64 p bool"], LIMIT), (["compound c64 p bool", "end"], LIMIT), (["compound c64"], ARGUMENTS),
        (["compound c64 p zzz"], UNKNOWN), (["compound c63 p bool"], DUPLICATE), (["compound c64 p"], SYNTAX),
    ]:
        yield [HEADER, *compounds, *last], (130, why)
    begun = [HEADER, "compound big p interval q interval"]
    for line, count, last in [("copy p q", 256, "copy p q"), ("sum p p q", 85, "sum p p q"), ("product p p q", 85, "sum p p q")]:
        yield [*begun, *[line] * count, "end"], None
        for more, why in [(last, LIMIT), ("copy", SYNTAX), ("copy p z", UNKNOWN), ("sum p q", ARGUMENTS)]:
            yield [*begun, *[line] * count, more], (count + 3, why)
    cells = [f"local s{number} bool" for number in range(256)]
    yield [*begun, *cells, "copy s255 s0", "end"], None
    for last, why in [
        ("local s256 bool", LIMIT), ("conditional s0 p p q", LIMIT), ("local s0 bool", DUPLICATE), ("local s256 zzz", UNKNOWN),
    ]:
        yield [*begun, *cells, last], (259, why)
    for line, more in [("copy p q", "copy p q"), ("local s bool", "local t bool")]:
        yield doubled(line), None
        nested = [*doubled(line), "compound d p bool q bool", "c8 p q"]
        yield [*nested, "end"], None
        yield from (([*nested, last], (39, LIMIT)) for last in (more, "c0 p q", "c8 p q"))


def long():
    """Texts with the longest lines, and the longest texts, and one byte more."""
    for header in MOST:
        yield "#".ljust(4096, "x") + f"\n{header}\n", None
        yield "#".ljust(4097, "x") + f"\n{header}\n", (1, LIMIT)
        yield header.ljust(4096) + "\n", None
        yield header.ljust(4097) + "\n", (1, LIMIT)
        yield f"{header}\n".ljust(1_048_576, "\n"), None
        yield f"{header}\n".ljust(1_048_577, "\n"), (0, LIMIT)
    # Members with long names: as many of a set as a line holds.
    for count, length in [(128, 30), (127, 31), (64, 32)]:
        names = " ".join(f"m{number}_".ljust(length, "m") for number in range(count))
        yield f"{SECOND_HEADER}\nset s {names}".ljust(4096 + 12) + "\n", None
        yield f"{SECOND_HEADER}\nset s {names}".ljust(4097 + 12) + "\n", (2, LIMIT)
    begun = f"{HEADER}\ncompound c p bool q bool\n"
    yield begun + "copy p q".ljust(4096) + "\nend\n", None
    for line in ["copy p q", "#", "zzz", "local", "end", ""]:
        yield begun + line.ljust(4097) + "\nend\n", (3, LIMIT)


def under_each_header(cases):
    """Cases that come to the same under each header."""
    for lines, fault in cases:
        yield lines, fault
        if lines[:1] == [HEADER]:
            yield [SECOND_HEADER, *lines[1:]], fault


def all_cases():
    """All these texts, each with its first fault."""
    lists = [*under_each_header([*small(), *limits()]), *headers(), *most_premises(), *most_members()]
    return [("".join(f"{line}\n" for line in lines), fault) for lines, fault in lists] + [*long()]
