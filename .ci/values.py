"""What procedures give, and which values, reasons and conflicts follow, worked out from scratch from what the manual says of them.

What is known of a number is the least and the greatest that it may be, or NONE where it may be none; what is known of a member is
the set of those that it may be.
"""
import itertools
from collections import deque

NONE = (1, 0)
SIGNS = [
    ((-1_000_000, -1), "neg"), ((0, 0), "zero"), ((1, 1_000_000), "pos"),
    ((-1_000_000, 0), "neg zero"), ((0, 1_000_000), "zero pos"),
]


def contradiction(info):
    """What is known of a value that may be none, where something else was known of it."""
    return NONE if isinstance(info, tuple) else frozenset()


def is_empty(info):
    return info in (NONE, frozenset())


def meet(one, other):
    """What both allow."""
    if isinstance(one, frozenset):
        return one & other
    low, high = max(one[0], other[0]), min(one[1], other[1])
    return (low, high) if low <= high else NONE


def hull(values):
    """The smallest interval that holds the values, cut to the range."""
    return meet((min(values), max(values)), (-1_000_000, 1_000_000))


def ends(function):
    """The hull of what a function gives, where that is found at the ends of its inputs."""
    return lambda *inputs: hull([function(*values) for values in itertools.product(*inputs)])


def truths(may_be_false, may_be_true):
    return frozenset(["false"] * bool(may_be_false) + ["true"] * bool(may_be_true))


def each(function):
    """All that a function gives on truths."""

    def answers(*inputs):
        found = {function(*(word == "true" for word in words)) for words in itertools.product(*inputs)}
        return truths(False in found, True in found)

    return answers


def square(x):
    return hull([x[0] * x[0], x[1] * x[1], *[0] * (x[0] <= 0 <= x[1])])


def quotient(t, x):
    """None stands for nothing."""
    if x[0] <= 0 <= x[1]:
        return None
    pairs = list(itertools.product(t, x))
    return meet((min(-(-a // b) for a, b in pairs), max(a // b for a, b in pairs)), (-1_000_000, 1_000_000))


def equal(one, other):
    is_one = len(one) == 1 if isinstance(one, frozenset) else one[0] == one[1]
    return truths(not (is_one and one == other), not is_empty(meet(one, other)))


def sign(x):
    results = [set(names.split()) for (low, high), names in SIGNS if low <= x[0] and x[1] <= high]
    return frozenset(set.intersection(*results)) if results else None


MEANINGS = {
    "adder": ends(lambda x, y: x + y), "subtractor": ends(lambda t, x: t - x), "multiplier": ends(lambda x, y: x * y),
    "squarer": square, "divider": quotient, "at_most": lambda x, y: truths(x[1] > y[0], x[0] <= y[1]), "equal": equal,
    "inverter": each(lambda p: not p), "conjoiner": each(lambda p, q: p and q), "disjoiner": each(lambda p, q: p or q),
    "copy": lambda x: x, "point": lambda k: hull(k) if k[0] == k[1] else None, "fixed": lambda x: x if x[0] == x[1] else None,
    "sign": sign,
}


def given(name, inputs):
    """What a procedure gives; None where that is nothing, and False where it is a contradiction."""
    if name == "switch":
        truth, info = inputs
        return (info if truth == {"true"} else None) if truth else False
    return False if any(map(is_empty, inputs)) else MEANINGS[name](*inputs)


def settled(values, instances, most):
    """The least informed values that are at least these and that no instance adds to; None where that takes more calls than most.

    An instance is a procedure's name, its inputs and its output."""
    values, readers = dict(values), {}
    for number, (_, inputs, _) in enumerate(instances):
        for cell in set(inputs):
            readers.setdefault(cell, []).append(number)
    agenda, waiting = deque(range(len(instances))), set(range(len(instances)))
    while agenda:
        if (most := most - 1) < 0:
            return None
        number = agenda.popleft()
        waiting.discard(number)
        name, inputs, output = instances[number]
        info = given(name, [values[cell] for cell in inputs])
        if info is None:
            continue
        old = values[output]
        new = meet(old, info) if info is not False else contradiction(old)
        if new != old:
            values[output] = new
            due = [reader for reader in readers.get(output, []) if reader not in waiting]
            agenda.extend(due)
            waiting.update(due)
    return values


class Network:
    """What is told and attached, each under some premises, and what follows from it where some premises are believed. `nothing` is
    what is known of each declared cell at first. Values are not followed further than by `most` calls of procedures."""

    def __init__(self, nothing, most):
        self.declared, self.nothing, self.most = list(nothing), nothing, most
        self.tells, self.attached, self.last = [], {}, (None, None)
        # The premises that something rests on. What follows depends on no others.
        self.named = set()

    def tell(self, cell, info, support):
        self.named |= support
        self.tells.append((cell, info, support))

    def attach(self, number, instances, inner, support):
        """Attaches procedures by the line of this number; `inner` is what is known at first of their inner cells."""
        self.named |= support
        self.nothing.update(inner)
        self.attached[number] = (instances, {output for _, _, output in instances}, [*inner], support)

    def visible(self, beliefs):
        """The attachments that count under these beliefs: the number of the line, procedures, outputs and inner cells of each."""
        return [(number, *parts) for number, (*parts, support) in self.attached.items() if support <= beliefs]

    def told(self, cell, beliefs):
        """What was told of the cell under these beliefs."""
        value = self.nothing[cell]
        for told, info, support in self.tells:
            if told == cell and support <= beliefs:
                value = meet(value, info)
        return value

    def all_told(self, beliefs):
        """What was told of each cell under these beliefs."""
        values = dict(self.nothing)
        for cell, info, support in self.tells:
            if support <= beliefs:
                values[cell] = meet(values[cell], info)
        return values

    def is_written(self, cell, beliefs):
        """Whether an attachment that counts under these beliefs writes the cell."""
        return any(cell in written for _, written, _, support in self.attached.values() if support <= beliefs)

    def values(self, beliefs):
        """The values of all cells under these beliefs, from scratch; None where following them takes too many calls."""
        key = frozenset(beliefs & self.named), len(self.tells), len(self.attached)
        if self.most and self.last[0] != key:
            instances = [instance for _, instances, _, _ in self.visible(beliefs) for instance in instances]
            self.last = key, settled(self.all_told(beliefs), instances, self.most)
        return self.last[1]

    def value(self, cell, beliefs):
        """The value of the cell under these beliefs; None where following it takes too many calls."""
        if not self.is_written(cell, beliefs):
            return self.told(cell, beliefs)
        values = self.values(beliefs)
        return values and values[cell]

    def reason(self, cell, premises):
        """The believed premises that the value of the cell needs, found from the last to the first; None as for a value."""
        needed, value = set(premises), self.value(cell, set(premises))
        if value is None:
            return None
        for premise in reversed(premises):
            without = self.value(cell, needed - {premise}) if premise in self.named else value
            if without is None:
                return None
            if without == value:
                needed.discard(premise)
        return needed

    def conflicts(self, beliefs):
        """The contradictory declared cells, and the lines of attachments with a contradictory inner cell; None as for a value."""
        values = self.values(beliefs)
        if values is None:
            return None
        lines = [number for number, _, _, inner in self.visible(beliefs) if any(is_empty(values[cell]) for cell in inner)]
        return [cell for cell in self.declared if is_empty(values[cell])], lines

    def is_consistent(self, beliefs, follows=True):
        """Whether nothing is contradictory under these beliefs; None as for a value, and where values are not to be followed."""
        if any(map(is_empty, self.all_told(beliefs).values())):
            return False
        found = self.conflicts(beliefs) if follows else None
        return None if found is None else found == ([], [])

    def may_conflict(self, cells, lines, beliefs):
        """Whether these may be the conflicts, by what was told and what attachments write."""
        empty = {cell for cell in self.declared if is_empty(self.told(cell, beliefs))}
        may_be = [cell for cell in self.declared if cell in empty or self.is_written(cell, beliefs)]
        may_have = [number for number, _, _, inner in self.visible(beliefs) if inner]
        is_listed = cells == [cell for cell in may_be if cell in cells] and empty <= set(cells)
        return is_listed and lines == [number for number in may_have if number in lines]
