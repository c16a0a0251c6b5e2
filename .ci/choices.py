"""Random choices, right ones and bad ones, and transcripts in which some premises contradict each other, so that some choices have
an answer and others none. `chance` draws them.
"""
import re

# A declaration whose attachments may contradict in cells of their own, too.
WORLD = """workbench 1
user ann
user bob
{premises}
premise mine of bob
set color red green blue
cell x interval
cell y interval
cell t interval
cell k exact
cell g color
cell h color
cell e bool
cell f bool
compound apart p interval q interval
local d interval
copy p d
copy q d
end
compound border one color other color differ bool
local same bool
equal one other same
inverter same differ
end
compound same p color q color
local d color
copy p d
copy q d
end
"""
ATTACHED = [
    "copy x y", "adder x y t", "sum x y t", "at_most x y f", "point k x", "equal g h e", "border g h e", "apart x y", "apart y t",
    "same g h", "inverter e f", "switch e x y", "conditional e x y t",
]
# What is told of cells, among more, and what is attached, where only the inner cells of attachments are to be contradictory.
HELD = {"x": 1, "y": 4, "t": 6, "g": "red", "h": "green"}
ATTACHED_WITHIN = ["apart x y", "apart y t", "apart t x", "same g h"]
NO_PREMISES = ["zz", "A", "ann", "x", "under", "none", "choose", "a,b", "#", "|", "{a}"]


def some_groups(chance, premises):
    """Groups of different premises."""
    names, groups = chance.sample(premises, len(premises)), []
    for _ in range(chance.choice([1, 1, 2, 2, 2, 3, 3, 4, 6])):
        size = chance.choice([1, 2, 2, 2, 3, 4])
        groups, names = groups + [names[:size]] * bool(names), names[size:]
    return groups


def spoiled(chance, line, premises):
    """The line of a choice, with some change that mostly makes it a bad one."""
    way = chance.choice(["bar", "end", "none", "part", "more", "more", "unknown", "unknown", "user", "long", "byte"])
    at = chance.randrange(len(line) + 1)
    if way == "bar":
        return line[:at] + "|" + line[at:]
    if way == "end":
        return chance.choice([f"{line}|", line.replace("choose ", "choose |", 1), line.replace("|", "||", 1), f"{line} |"])
    if way == "none":
        return line.split("choose")[0] + "choose"
    if way == "part":
        places = [place for place, byte in enumerate(line) if byte in " |"] or [0]
        at = chance.choice(places)
        return line[:at] + chance.choice(" |") + line[at + 1 :]
    if way == "more":
        names = chance.choices([*premises, "zz", "yy"], k=chance.choice([1, 1, 2, 4, 7, 30]))
        part = chance.choice([" ", "|"])
        return part.join([line, *names])
    if way == "unknown":
        names = re.findall("[a-z0-9_]+", line)[2:] or ["choose"]
        return re.sub(rf"\b{chance.choice(names)}\b", chance.choice(NO_PREMISES), line)
    if way == "user":
        return re.sub("^[a-z]+", "eve", line)
    if way == "long":
        return line.ljust(1023 + chance.randrange(4))
    return line[:at] + chr(chance.randrange(256)) + line[at:]


def some_choice(chance, users, premises):
    """The line of a choice; one of some is bad."""
    line = " ".join([chance.choice(users), "choose", *map("|".join, some_groups(chance, premises))])
    for _ in range(chance.choice([0, 0, 0, 0, 0, 1, 1, 2])):
        line = spoiled(chance, line, premises)
    return line


def some_tell(chance, user, under, is_within):
    """A tell that often contradicts another one; or none of the same cell."""
    cell = chance.choice([*HELD] if is_within else "xxyytkghef")
    held, colors = HELD[cell] if is_within else chance.randrange(5), ["red", "green", "blue"]
    if cell in "gh":
        members = [held] if is_within else chance.sample(colors, chance.choice([1, 1, 2]))
        members += [color for color in colors if is_within and color != held and chance.random() < 0.3]
        told = f"{{{','.join(members)}}}"
    elif cell in "ef":
        told = chance.choice(["{true}", "{false}"])
    elif cell == "k":
        told = str(held)
    else:
        told = f"{held - chance.randrange(3) * is_within}..{held + chance.randrange(4)}"
    return f"{user} tell {cell} {told}{under}"


def some_line(chance, premises, is_within):
    """A line of one of two users."""
    user = chance.choice(["ann", "ann", "bob"])
    support = chance.sample([*premises, *["mine"] * (user == "bob")], chance.choice([0, 1, 1, 1, 1, 2]))
    under = " under " + " ".join(support) if support else ""
    kind = chance.choice(["tell"] * 6 + ["attach"] * 2 + ["choose"] * 5 + ["believe", "doubt", "doubt"] + ["question"] * 3)
    if kind == "tell":
        return some_tell(chance, user, under or f" under {chance.choice(premises)}", is_within)
    if kind == "attach":
        return f"{user} attach {chance.choice(ATTACHED_WITHIN if is_within else ATTACHED)}{under}"
    if kind == "choose":
        return some_choice(chance, [user], [*premises, "mine"])
    if kind in ("believe", "doubt"):
        return f"{user} {kind} {' '.join(support or premises[:2])}"
    question = chance.choice(["beliefs", "beliefs", "conflicts", "ask", "why"])
    return f"{user} {question}" + f" {chance.choice('xytkghef')}" * (question in ("ask", "why"))


def some_texts(chance):
    """A declaration, and a transcript over it with many choices. In some only the cells of attachments are contradictory."""
    premises, is_within = list("abcdefghijklno"[: chance.randrange(3, 15)]), chance.random() < 0.3
    begun = [f"ann doubt {' '.join(chance.sample(premises, chance.randrange(1, len(premises) + 1)))}"] * chance.randrange(2)
    begun += [some_tell(chance, "ann", f" under {premise}", is_within) for premise in premises * chance.randrange(1, 4)]
    begun += [f"ann attach {chance.choice(ATTACHED_WITHIN)} under {premise}" for premise in premises[:3]] * is_within
    lines = [*begun, *(some_line(chance, premises, is_within) for _ in range(chance.randrange(5, 30)))]
    return WORLD.format(premises="\n".join(f"premise {premise}" for premise in premises)), "\n".join(lines) + "\n"
