"""A reader of transcripts, by the rules of docs/FORMATS.md alone: the command that each line says, or its first refusal; and the
replies, worked out from scratch. Where a value takes too many steps to follow, only what was told of its cell is known, and how
values are written.
"""
import itertools
from collections import namedtuple

from texts import Refused, has_wrong_byte, is_silent, lines_of, require, words_of
from values import Network, meet

REFUSALS = {
    10: "line too long", 1: "syntax", 2: "unknown user", 3: "unknown command", 4: "unknown cell", 6: "unknown procedure",
    8: "wrong information", 9: "wrong arguments", 5: "unknown premise", 7: "not your premise",
}
MOST_IN_LINE = 1024
WORDS = ("tell", "attach", "believe", "doubt", "beliefs", "ask", "why", "conflicts", "choose")
# The most groups of a choice, and the most names in a group.
MOST_GROUPS, MOST_NAMES = 6, 4
# `rest` is the information of a tell, the callable of an attachment, or the groups of a choice.
Command = namedtuple("Command", "user word cells premises rest")


def read_words(user, word, *rest):
    """The command of these words, if they fit its form."""
    if word == "tell":
        require(len(rest) == 2 or len(rest) > 3 and rest[2] == "under", 1)
        return Command(user, word, rest[:1], rest[3:], rest[1])
    if word == "attach":
        name, *cells = rest or [""]
        under = cells.index("under") if "under" in cells else len(cells)
        require(under > 0 and under + 1 != len(cells), 1)
        return Command(user, word, cells[:under], cells[under + 1 :], name)
    if word in ("believe", "doubt"):
        require(rest, 1)
        return Command(user, word, [], rest, None)
    if word == "choose":
        groups = [group.split("|") for group in rest]
        require(groups and all(map(all, groups)), 1)
        return Command(user, word, [], sum(groups, []), groups)
    require(word not in WORDS or len(rest) == (word in ("ask", "why")), 1)
    return Command(user, word, rest, [], None)


def read_line(line, declared):
    """The command of a line; its first refusal is raised."""
    require(len(line) <= MOST_IN_LINE, 10)
    words = words_of(line)
    require(not has_wrong_byte(line) and len(words) > 1, 1)
    command = read_words(*words)
    require(command.user in declared.users, 2)
    require(command.word in WORDS, 3)
    require(all(cell in declared.cells for cell in command.cells), 4)
    kinds = [declared.cells[cell] for cell in command.cells]
    if command.word == "attach":
        require(command.rest in declared.callables, 6)
        require(declared.callables[command.rest].accepts(kinds), 9)
    elif command.word == "tell":
        require(kinds[0].read(command.rest) is not None, 8)
    elif command.word == "choose":
        is_small = len(command.rest) <= MOST_GROUPS and all(len(group) <= MOST_NAMES for group in command.rest)
        require(is_small and len(set(command.premises)) == len(command.premises), 9)
    require(all(premise in declared.premises for premise in command.premises), 5)
    if command.word in ("tell", "attach"):
        require(all(declared.premises[premise] in (None, command.user) for premise in command.premises), 7)
    return command


def conflicts_text(cells, lines):
    """How conflicts are written."""
    return " ".join(["conflicts", *cells, *(f"line {number}" for number in lines)] if cells or lines else ["conflicts none"])


def chosen_text(names):
    """How what was chosen is written: the names taken, or None."""
    return " ".join(["chose", *(names or ["none"])])


class Session:
    """What the lines of a transcript have left so far. A value is not followed further than by so many calls of procedures."""

    def __init__(self, declared, most=2000):
        self.declared = declared
        self.beliefs = {user: set(declared.premises) for user in declared.users}
        self.network = Network({cell: kind.nothing for cell, kind in declared.cells.items()}, most)

    def ordered(self, premises):
        return [premise for premise in self.declared.premises if premise in premises]

    def names(self, premises):
        return " ".join(self.ordered(premises)) or "none"

    def answer(self, number, line):
        """The reply to a line, which is then done: its parts, which ` because ` joins, None for one that takes too many calls."""
        try:
            command = read_line(line, self.declared)
        except Refused as why:
            return [f"refused {why} {REFUSALS[why.args[0]]}"]
        beliefs = self.beliefs[command.user]
        if command.word == "beliefs":
            return [f"believes {self.names(beliefs)}"]
        if command.word == "conflicts":
            found = self.network.conflicts(beliefs)
            return [None if found is None else conflicts_text(*found)]
        if command.word == "choose":
            return [self.choose(command)]
        if command.word not in ("ask", "why"):
            self.do(number, command)
            return ["ok"]
        value = self.network.value(command.cells[0], beliefs)
        parts = [None if value is None else self.declared.cells[command.cells[0]].written(value)]
        if command.word == "why":
            reason = self.network.reason(command.cells[0], self.ordered(beliefs))
            parts.append(None if reason is None else self.names(reason))
        return parts

    def combinations(self, command):
        """What is tried in a choice, in order: the names taken, what is believed then, and whether nothing is contradictory under
        that, None where this takes too many calls. After such a one no other is followed."""
        others, known = self.beliefs[command.user] - set(command.premises), {}
        for names in itertools.product(*command.rest):
            beliefs = others | set(names)
            key = frozenset(beliefs & self.network.named)
            if key not in known:
                known[key] = self.network.is_consistent(beliefs, None not in known.values())
            yield names, beliefs, known[key]

    def choose(self, command):
        """The reply to a choice, which is then done; None where it takes too many calls, and is not done."""
        for names, beliefs, is_consistent in self.combinations(command):
            if is_consistent is None:
                return None
            if is_consistent:
                self.beliefs[command.user] = beliefs
                return chosen_text(names)
        return chosen_text(None)

    def may_choose(self, command, text):
        """Whether the text may be the reply to a choice, which is then done."""
        for names, beliefs, is_consistent in self.combinations(command):
            if text == chosen_text(names) and is_consistent is not False:
                self.beliefs[command.user] = beliefs
                return True
            if is_consistent:
                return False
        return text == chosen_text(None)

    def do(self, number, command):
        """Does what a command says that is no question."""
        support, inner = set(command.premises), {}
        if command.word == "believe":
            self.beliefs[command.user] |= support
        elif command.word == "doubt":
            self.beliefs[command.user] -= support
        elif command.word == "tell":
            cell = command.cells[0]
            self.network.tell(cell, self.declared.cells[cell].read(command.rest), support)
        else:
            instances = self.declared.expanded(command.rest, command.cells, inner)
            self.network.attach(number, instances, {cell: kind.nothing for cell, kind in inner.items()}, support)

    def may_be(self, command, text, reason="none"):
        """Whether the parts of a reply to a question may be right, by what was told and what attachments write."""
        if command.word == "choose":
            return self.may_choose(command, text)
        beliefs = self.beliefs[command.user]
        if command.word == "conflicts":
            words = text.split(" ")[1:]
            lines = [int(word) for word in words if word.isdecimal()]
            cells = [word for word in words if not word.isdecimal() and word not in ("none", "line")]
            return text == conflicts_text(cells, lines) and self.network.may_conflict(cells, lines, beliefs)
        cell = command.cells[0]
        kind, told = self.declared.cells[cell], self.network.told(cell, beliefs)
        info, premises = kind.read(text), set(reason.split(" ")) - {"none"}
        is_value = info is not None and text == kind.written(info) and meet(info, told) == info
        is_reason = premises <= beliefs and reason == self.names(premises) and (text != "nothing" or not premises)
        return is_value and is_reason

    def is_right(self, number, line, text):
        """Whether the text may be the reply to a line, which is then done."""
        parts, texts = self.answer(number, line), text.split(" because ", 1)
        if len(parts) != len(texts) or any(part not in (None, given) for part, given in zip(parts, texts)):
            return False
        return None not in parts or self.may_be(read_line(line, self.declared), *texts)


def lines_with_replies(transcript):
    """The lines that get a reply, each with its number."""
    lines = enumerate(lines_of(transcript), 1)
    return [(number, line) for number, line in lines if len(line) > MOST_IN_LINE or not is_silent(line)]


def replies_to(transcript, declared):
    """The replies to a transcript of which each value can be followed."""
    session = Session(declared)
    return [f"{number}: {' because '.join(session.answer(number, line))}" for number, line in lines_with_replies(transcript)]


def wrong_replies(declared, transcript, out):
    """What is wrong of the replies to a transcript; None where nothing is."""
    session, replies, wanted = Session(declared), lines_of(out), lines_with_replies(transcript)
    if out and out[-1] != "\n":
        return f"the last reply is not ended: {replies[-1]!r}"
    for (number, line), reply in zip(wanted, replies):
        head, colon, text = reply.partition(": ")
        if head + colon != f"{number}: ":
            return f"the reply to line {number} is missing: {reply!r}"
        if not session.is_right(number, line, text):
            return f"line {number}, {line[:200]!r}: {text[:200]!r}"
    return None if len(wanted) == len(replies) else f"{len(replies)} replies to {len(wanted)} lines"
