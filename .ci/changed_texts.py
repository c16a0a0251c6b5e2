"""Random texts: the examples and the worked rows, changed byte by byte and line by line, and random transcripts with many choices.
`chance` draws them.
"""
import random
import re
from pathlib import Path

from choices import some_choice, some_texts, spoiled
from texts import words_of
from widening import NUMBERS, premises_in, wide_declaration, wide_line

TOP = Path(__file__).resolve().parent.parent
# The share of cases under version 2, with many premises and large sets, and of those that begin with a random transcript.
WIDE, DRAWN = 0.2, 0.25


def some_byte(chance):
    return chr(chance.randrange(256)) if chance.random() < 0.3 else chance.choice(" \t\r\n#{}.,-_|0129abxz")


def changed_bytes(chance, text):
    """The text, changed at some byte."""
    at, much = chance.randrange(len(text) + 1), chance.choice([1, 1, 1, 2, 5, 30])
    before, some, after = text[:at], text[at : at + much], text[at + much :]
    return chance.choice([
        before + some_byte(chance) + after, before + some_byte(chance) + some + after, before + after,
        before + some[::-1] + after, before + some + some + after, before, before + some_byte(chance) * much + some + after,
    ])


def changed_lines(chance, text, another, names):
    """The text, changed at some line. New lines are another text's, and new words are of these names."""
    lines, others = text.split("\n"), another.split("\n")
    at, to, start = chance.randrange(len(lines)), chance.randrange(len(lines)), chance.randrange(len(others))
    way = chance.choice(["drop", "repeat", "swap", "splice", "word", "word", "word", "add", "stretch"])
    if way == "drop":
        del lines[at : at + chance.choice([1, 1, 3])]
    elif way == "repeat":
        lines[to:to] = lines[at : at + chance.randrange(1, 6)]
    elif way == "swap":
        lines[at], lines[to] = lines[to], lines[at]
    elif way == "splice":
        lines[at:at] = others[start : start + chance.randrange(1, 8)]
    elif way == "stretch":
        size = chance.choice([1024, 4096]) + chance.randrange(-1, 3)
        lines[at] = lines[at].ljust(size, chance.choice(" \tx"))
    else:
        words = lines[at].split(" ")
        place = chance.randrange(len(words) + 1)
        words[place : place + (way == "word")] = [chance.choice(names)]
        lines[at] = " ".join(words)
    return "\n".join(lines)


def changed_choices(chance, declaration, transcript):
    """The transcript with a choice more, or with one of its choices changed. Of premises that widening adds, a few are named."""
    users = re.findall("^user ([a-z]+)", declaration, re.MULTILINE) or ["ann"]
    premises = premises_in(re.sub(r"premise w\d+\n", "", declaration)) or ["x"]
    premises += [f"w{number}" for number in NUMBERS] * ("premise w" in declaration)
    lines = transcript.split("\n")
    places = [place for place, line in enumerate(lines) if " choose " in line]
    if places and chance.random() < 0.5:
        at = chance.choice(places)
        lines[at] = spoiled(chance, lines[at], premises)
    else:
        lines.insert(chance.randrange(len(lines) + 1), some_choice(chance, users, premises))
    return "\n".join(lines)


def widened(chance, declaration, transcript):
    """Both texts, made wide; a few keep the header of version 1, or have a premise too many."""
    wide = wide_declaration(chance, declaration)
    premises = premises_in(wide)
    way = chance.random()
    if way < 0.05:
        wide = wide.replace("workbench 2", "workbench 1", 1)
    elif way < 0.1:
        wide += "".join(f"premise more{number}\n" for number in range(513 - len(premises)))
    return wide, "\n".join(wide_line(chance, line, premises) for line in transcript.split("\n"))


def names_in(declaration):
    """The words of a declaration; of the many premises that widening adds, a few."""
    words = words_of(re.sub(r"premise w\d+\n", "", declaration).replace("\n", " ")) or ["x"]
    return words + [f"w{number}" for number in NUMBERS] * ("premise w" in declaration)


def case_of(seed, number, texts):
    """The case of this number: a declaration, a transcript, whether that is in a file, and whether `check` is tried too."""
    chance = random.Random(f"{seed} {number}")
    is_drawn = chance.random() < DRAWN
    declaration, transcript = some_texts(chance) if is_drawn else chance.choice(texts)
    others = chance.choice(texts)
    if chance.random() < WIDE:
        declaration, transcript = widened(chance, declaration, transcript)
    which = chance.choice(["transcript"] * 3 + ["declaration", "both"])
    for _ in range(chance.choice([0, 0, 0, 1, 2] if is_drawn else [1, 1, 2, 3, 5, 8, 13])):
        bytewise = chance.random() < 0.4
        if which != "transcript":
            names = names_in(declaration)
            another = chance.choice([declaration, *others])
            declaration = changed_bytes(chance, declaration) if bytewise else changed_lines(chance, declaration, another, names)
        if which == "transcript" and chance.random() < 0.2:
            transcript = changed_choices(chance, declaration, transcript)
        elif which != "declaration":
            names = words_of(f"{transcript} {transcript} x".replace("\n", " ")) + names_in(declaration)
            another = chance.choice([transcript, *others])
            transcript = changed_bytes(chance, transcript) if bytewise else changed_lines(chance, transcript, another, names)
    return declaration, transcript, chance.random() < 0.5, chance.random() < 0.25


def all_texts():
    """The declarations and transcripts of the examples and the worked rows."""
    found = []
    rows = sorted(TOP.glob("crates/workbench/rows/*/*/transcript"))
    examples = sorted(TOP.glob("examples/*/transcript"))
    # The examples say more, and there are fewer; one of them is long, and takes long.
    short = [example for example in examples if example.stat().st_size < 10_000]
    for transcript in [*examples, *short * 2, *rows]:
        own = transcript.parent / "declaration"
        declaration = own if own.exists() else transcript.parent.parent / "declaration"
        texts = (declaration.read_bytes().decode("latin-1"), transcript.read_bytes().decode("latin-1"))
        # A `why` under many premises settles a network once for each: one changed line may make it take minutes.
        if len(premises_in(texts[0])) <= 64 or " attach " not in texts[1]:
            found.append(texts)
    return found
