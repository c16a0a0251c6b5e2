"""Texts made wide: a declaration under version 2, with premises and members between its own, so that its own have numbers and
places far apart, at the ends of words too; and commands that name some of these premises and members. `chance` draws them.
"""
import re

# Numbers of premises: the ends of words of 64 and of 128 bits, and some more. Places of members: the ends of theirs.
NUMBERS = [0, 1, 62, 63, 64, 65, 100, 127, 128, 129, 191, 192, 255, 256, 300, 319, 320, 383, 384, 447, 448, 510, 511]
PLACES = [0, 1, 31, 62, 63, 64, 65, 66, 95, 126, 127]
# A declaration with more premises of its own, and a set with more members, is left as it is.
MOST_OWN = 16


def far(chance, names, places):
    """One of the names: mostly one at these places, and sometimes any."""
    there = [names[place] for place in places if place < len(names)]
    return chance.choice(there if there and chance.random() < 0.8 else names)


def wide_set(chance, line):
    """The line of a set, with members `m0`, `m1` .. between its own, each by its place."""
    first, name, *own = line.split()
    size = chance.choice([65, 100, 127, 128, 128, 128])
    places = sorted({*chance.sample(PLACES, 3), *chance.sample(range(65), len(own))})[: len(own)]
    members = {place: member for place, member in zip(places, own)}
    return " ".join([first, name, *(members.get(place, f"m{place}") for place in range(size))])


def wide_declaration(chance, text):
    """The text under version 2, with premises `w0`, `w1` .. between its own, each by its number, and with larger sets."""
    *lines, last = text.replace("workbench 1", "workbench 2", 1).split("\n")
    own = sum(line.startswith("premise ") for line in lines)
    numbers = sorted(chance.sample(NUMBERS, own)) if own <= MOST_OWN else []
    wide, declared = [], 0 if own <= MOST_OWN else own
    for line in lines:
        if line.startswith("premise ") and numbers:
            number = numbers.pop(0)
            wide += [f"premise w{filler}" for filler in range(declared, number)]
            declared = number + 1
        is_set = line.startswith("set ") and len(line.split()) <= MOST_OWN
        wide.append(wide_set(chance, line) if is_set else line)
    most = chance.choice([declared or 1, 65, 129, 512, 512])
    return "\n".join([*wide, *(f"premise w{filler}" for filler in range(declared, most)), last])


def premises_in(declaration):
    """The names of the premises of a declaration without fault, by their numbers."""
    return re.findall("^premise ([a-z][a-z0-9_]*)", declaration, re.MULTILINE)


def members_in(declaration):
    """The members of the first set of a declaration without fault, by their places."""
    found = re.search("^set [a-z0-9_]+ (.*)", declaration, re.MULTILINE)
    return found[1].split() if found else []


def wide_line(chance, line, premises):
    """A line of a transcript, with more premises and members of which it tells, some of the time."""
    words = line.split(" ")
    if len(words) < 3 or chance.random() < 0.5:
        return line
    words = [wide_word(chance, word) for word in words]
    if words[1] in ("believe", "doubt") or "under" in words:
        words += [far(chance, premises, NUMBERS) for _ in range(chance.choice([1, 1, 2, 5]))]
    elif words[1] in ("tell", "attach") and chance.random() < 0.5:
        words += ["under", far(chance, premises, NUMBERS)]
    elif words[1] == "choose":
        words[-1] += chance.choice("| ") + far(chance, premises, NUMBERS)
    return " ".join(words)


def wide_word(chance, word):
    """A word, with more members if it spells some."""
    if word[:1] + word[-1:] != "{}":
        return word
    more = [f"m{place}" for place in chance.sample(PLACES, chance.randrange(4))]
    return "{" + ",".join([*word[1:-1].split(","), *more]) + "}"
