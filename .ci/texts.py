"""Lines, words and names by the rules of docs/FORMATS.md, and kinds: how each spells what is known of a value.

A text is a string of which each character stands for a byte.
"""
import re

from values import contradiction

RESERVED = {"under", "none", "nothing", "contradiction", "line", "of", "local", "end"}
NUMBER = "(0|-?[1-9][0-9]*)"


class Refused(Exception):
    """The first fault of a line."""


def require(holds, fault):
    if not holds:
        raise Refused(fault)


def lines_of(text):
    """The lines of a text: each up to its line feed, and a last piece that has none, if it is not empty."""
    *lines, last = text.split("\n")
    return lines + [last] * (last != "")


def words_of(line):
    return re.findall(r"[^ \t\r]+", line)


def is_silent(line):
    """Whether the line is blank or a comment."""
    words = words_of(line)
    return not words or words[0].startswith("#")


def has_wrong_byte(line):
    """Whether some byte is no blank and not visible ASCII."""
    return re.search(r"[^ \t\r\x21-\x7e]", line) is not None


def is_name(word):
    return re.fullmatch("[a-z][a-z0-9_]{0,31}", word) is not None and word not in RESERVED


class Kind:
    """A kind, by what is known of a value that may be any of it."""

    def __init__(self, nothing):
        self.nothing = nothing
        self.words = {"nothing": nothing, "contradiction": contradiction(nothing)}

    def read(self, word):
        """What a word says of a value; None where it spells no information of this kind."""
        return self.words[word] if word in self.words else self.spelled(word)

    def written(self, info):
        """How an information is written."""
        return next((word for word, known in self.words.items() if known == info), None) or self.spelling(info)


class Numbers(Kind):
    """The whole numbers from -most to most, which a form spells."""

    def __init__(self, most, form):
        super().__init__((-most, most))
        self.form = form

    def spelled(self, word):
        found = re.fullmatch(self.form, word)
        if not found:
            return None
        low, high = int(found[1]), int(found[2] or found[1])
        return (low, high) if self.nothing[0] <= low <= high <= self.nothing[1] else None

    def spelling(self, info):
        low, high = info
        return str(low) if low == high else f"{low}..{high}"


class Members(Kind):
    """The members of a set, in their order."""

    def __init__(self, members):
        super().__init__(frozenset(members))
        self.members = members

    def spelled(self, word):
        named = word[1:-1].split(",")
        is_right = word[:1] + word[-1:] == "{}" and len(set(named)) == len(named) and self.nothing.issuperset(named)
        return frozenset(named) if is_right else None

    def spelling(self, info):
        return "{" + ",".join(member for member in self.members if member in info) + "}"


# The kinds of every declaration.
KINDS = {
    "interval": Numbers(1_000_000, rf"{NUMBER}(?:\.\.{NUMBER})?"), "exact": Numbers(1_000_000_000, f"{NUMBER}()"),
    "bool": Members(["false", "true"]), "sign": Members(["neg", "zero", "pos"]),
}
