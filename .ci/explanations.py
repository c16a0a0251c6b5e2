"""What `workbench explain` has to write, by the rules of docs/FORMATS.md: which lines are faulty, where the marks stand under a line,
and which names are near. What was expected in a place is compared by the worked rows alone.
"""
import re
from collections import namedtuple

from declaration_reader import END, LIMIT, PROCEDURES, SYNTAX, UNKNOWN, Declared
from texts import KINDS, Refused, is_silent, lines_of, words_of
from transcript_reader import REFUSALS, WORDS, lines_with_replies, read_line

# The most bytes of a line that are shown.
MOST_SHOWN = 100
# The last line of an output that is not whole.
MORE = "out of memory: faulty lines may follow"
# The words of the language that may be near names, beside kinds and callables.
LANGUAGE = {
    "workbench", "user", "premise", "set", "cell", "compound", "local", "end", "of", "under", "nothing", "contradiction", *WORDS, *KINDS,
    *PROCEDURES, "sum", "product", "conditional",
}
# A block: `shown` and `marks` are None where they are left out. `near` is the name after `perhaps`.
Block = namedtuple("Block", "text number fault shown marks expected near")
BLOCK = re.compile(
    r"(declaration|transcript) line (\d+): ([^\n]+)\n(?:    ([^\n]*)\n)?(?:    ( *\^+)\n)?    expected ([^\n]*?)(?:; perhaps `([^`]+)`)?\n"
)


def blocks_of(out):
    """The blocks of an output; None where it is not made of blocks with an empty line between each two."""
    parts = out.split("\n\n")
    found = [BLOCK.fullmatch(part + "\n" * (number < len(parts))) for number, part in enumerate(parts, 1)]
    return [Block(part[1], int(part[2]), *part.groups()[2:]) for part in found] if all(found) else None


def faulty_lines(text):
    """The faulty lines of a declaration, each with its fault, as if those before it were blank, and what is declared then."""
    if len(text) > 1_048_576:
        yield 0, LIMIT, None
        return
    declared, number, is_passed_over = Declared(), 0, False
    for number, line in enumerate(lines_of(text), 1):
        words = words_of(line)
        if is_passed_over:
            is_passed_over = words != ["end"]
            continue
        try:
            declared.read(line)
        except Refused as fault:
            yield number, str(fault), declared
            if not declared.begun and not is_silent(line):
                return
            is_passed_over = declared.name is None and words[:1] == ["compound"]
    if not declared.begun:
        yield number + 1, SYNTAX, None
    elif declared.name is not None:
        yield number + 1, END, None


def refused_lines(transcript, declared):
    """The refused lines of a transcript, each with its refusal."""
    for number, line in lines_with_replies(transcript):
        try:
            read_line(line, declared)
        except Refused as why:
            yield number, why.args[0]


def spans_of(line):
    """Where the words of a line are."""
    return [word.span() for word in re.finditer(r"[^ \t\r]+", line)]


def missing_place(line):
    """Where a word would begin after the last one."""
    end = spans_of(line)[-1][1] + 1
    return end, end + 1


def shown(line, span=None):
    """How a line is shown, and the marks under the bytes of a place in it; under none where the fault is the line's as a whole."""
    start, end = span or (0, 0)
    first = start if len(line) > MOST_SHOWN and end > MOST_SHOWN else 0
    part = line[first:][:MOST_SHOWN]
    seen = re.sub(r"[^ \x21-\x7e]", "?", re.sub(r"[\t\r]", " ", part))
    size = min(end - start, MOST_SHOWN)
    return seen, " " * (start - first) + "^" * size if span else None


def distance(one, other):
    """How many letters are added, left out and replaced, and neighbours exchanged, between two words."""
    if abs(len(one) - len(other)) > 2:
        return 3
    before, row = [], list(range(len(other) + 1))
    for i, letter in enumerate(one, 1):
        last, before, row = before, row, [i]
        for j, another in enumerate(other, 1):
            row.append(min(row[-1] + 1, before[j] + 1, before[j - 1] + (letter != another)))
            if i > 1 and j > 1 and letter == other[j - 2] and one[i - 2] == another:
                row[-1] = min(row[-1], last[j - 2] + 1)
    return row[-1]


def nearest(word, names):
    """The name that is near a word: of the fewest changes, and of these the first; None where none is near."""
    most = 2 if len(word) >= 6 else 1
    found = [(distance(word, name), place, name) for place, name in enumerate(names)]
    return min((near for near in found if near[0] <= most), default=(0, 0, None))[2]


# What is known of a fault: the places of which one has to be marked, and the names of which the nearest one has to be shown. Where
# the rules do not say which word is at fault, or name no sort, any will do.
Known = namedtuple("Known", "places names")


def known_of_form(line):
    """Of a wrong byte, the first one; of words that do not fit, some word, a name in a group, or the place of a missing word."""
    wrong = re.search(r"[^ \t\r\x21-\x7e]", line)
    parts = [part.span() for part in re.finditer(r"[^ \t\r|]+", line)]
    return Known([wrong.span()] if wrong else [*spans_of(line), *parts, missing_place(line)], None)


def first_unknown(words, names):
    """The place of the first of these words that is none of the names."""
    return next(place for word, place in words if word not in names)


def known_of_unknown(declared, words, spans):
    """Of an unknown name in a declaration: a callable or a cell of the open compound, the user after `of`, or a kind."""
    placed = [*zip(words, spans)]
    if declared.name is not None and words[0] != "local":
        if words[0] not in declared.callables:
            return Known([spans[0]], None)
        return Known([first_unknown(placed[1:], declared.open.cells)], list(declared.open.cells))
    if words[0] == "premise":
        return Known([spans[3]], list(declared.users))
    kinds = placed[3::2] if words[0] == "compound" else placed[2:]
    return Known([first_unknown(kinds, declared.kinds)], list(declared.kinds))


def known_of_fault(declared, line, fault):
    """Of a fault of a declaration."""
    if fault == LIMIT:
        return Known([None] if len(line) > 4096 else [*spans_of(line), None], None)
    return known_of_unknown(declared, words_of(line), spans_of(line)) if fault == UNKNOWN else known_of_form(line)


def named_premises(words, spans):
    """The names of premises in a line that fits its form, each with its place."""
    if words[1] == "choose":
        names = [(start, name) for word, (start, _) in zip(words, spans) for name in re.finditer(r"[^|]+", word)][2:]
        return [(name[0], (start + name.start(), start + name.end())) for start, name in names]
    after_under = [*words, "under"].index("under", 3) + 1
    first = {"tell": 5, "attach": after_under}.get(words[1], 2)
    return [*zip(words[first:], spans[first:])]


def known_of_refusal(declared, line, number):
    """Of a refusal of a line."""
    words, spans = words_of(line), spans_of(line)
    if number == 10:
        return Known([None], None)
    if number in (2, 3):
        return Known([spans[number - 2]], (list(declared.users), WORDS)[number - 2])
    if number == 4:
        first = 3 if words[1] == "attach" else 2
        return Known([first_unknown(zip(words[first:], spans[first:]), declared.cells)], list(declared.cells))
    if number == 5:
        return Known([first_unknown(named_premises(words, spans), declared.premises)], list(declared.premises))
    if number == 6:
        return Known([spans[2]], list(declared.callables))
    if number == 7:
        own = [name for name, owner in declared.premises.items() if owner in (None, words[0])]
        return Known([first_unknown(named_premises(words, spans), own)], None)
    if number == 8:
        return Known([spans[3]], None)
    return known_of_form(line)


def wrong_block(block, line, known, words):
    """What is wrong with a block, of this line of a text; None where nothing is. There may be no line, of which nothing is known.
    `words` are those that may be near names."""
    if known is None:
        return None if (block.shown, block.marks, block.near) == (None, None, None) else f"{block.shown!r} is shown"
    places = [place for place in known.places if shown(line, place) == (block.shown, block.marks)]
    if not places:
        wanted = [shown(line, place) for place in known.places[:2]]
        return f"{block.shown!r} and {block.marks!r}, not {wanted}"
    if known.names is None:
        return None if block.near is None or block.near in words else f"`{block.near}` is no name"
    start, end = places[0]
    near = nearest(line[start:end], known.names)
    return None if block.near == near else f"perhaps `{block.near}`, not `{near}`"
