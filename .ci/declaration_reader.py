"""A reader of declarations, by the rules of docs/FORMATS.md alone: what a text declares, or its first fault."""
from texts import KINDS, Members, Refused, has_wrong_byte, is_name, is_silent, lines_of, require, words_of

SYNTAX, DUPLICATE, UNKNOWN, ARGUMENTS, LIMIT, END = (
    "syntax", "duplicate name", "unknown name", "wrong arguments", "limit", "missing end",
)
# The most premises, and the most members of a set, by the version in the header.
VERSIONS = {"1": (64, 64), "2": (512, 128)}
# The kinds of the inputs of each procedure, then the kind of its output. All `*` of one procedure mean the same kind.
PROCEDURES = {
    "adder": "interval interval interval", "subtractor": "interval interval interval",
    "multiplier": "interval interval interval", "squarer": "interval interval", "divider": "interval interval interval",
    "at_most": "interval interval bool", "equal": "* * bool", "inverter": "bool bool", "conjoiner": "bool bool bool",
    "disjoiner": "bool bool bool", "switch": "bool * *", "copy": "* *", "point": "exact interval", "fixed": "interval exact",
    "sign": "interval sign",
}
# The compounds of every declaration.
PRELUDE = """compound sum x interval y interval t interval
adder x y t
subtractor t x y
subtractor t y x
end
compound product x interval y interval t interval
multiplier x y t
divider t x y
divider t y x
end
compound conditional p bool a interval b interval r interval
local n bool
inverter p n
switch p a r
switch n b r
end
"""


class Callable:
    """A procedure, or a compound: the kinds that it takes, where None stands for any, and how many procedures and inner cells it
    expands to. A compound has the kinds of its cells by their names, its parameters first, and the words of its lines."""

    def __init__(self, kinds, cells=None):
        self.kinds, self.cells, self.body = kinds, cells, []
        self.procedures, self.inner = int(cells is None), 0

    def accepts(self, kinds):
        same = {kind for wanted, kind in zip(self.kinds, kinds) if wanted is None}
        fits = all(wanted in (None, kind) for wanted, kind in zip(self.kinds, kinds))
        return len(kinds) == len(self.kinds) and fits and len(same) <= 1


class Declared:
    """What the lines of a declaration have declared so far, and the name of the compound that is open, if there is one."""

    def __init__(self):
        self.users, self.premises, self.cells, self.kinds = [], {}, {}, dict(KINDS)
        self.callables = {name: Callable([*map(KINDS.get, kinds.split())]) for name, kinds in PROCEDURES.items()}
        self.begun, self.name, self.open, self.compounds = True, None, None, 0
        for line in lines_of(PRELUDE):
            self.read(line)
        self.begun, self.compounds = False, 0

    def read(self, line):
        """Reads the next line, or raises its fault; a line with a fault declares nothing."""
        require(len(line) <= 4096, LIMIT)
        if is_silent(line):
            return
        require(not has_wrong_byte(line), SYNTAX)
        first, *rest = words_of(line)
        if not self.begun:
            require(first == "workbench" and len(rest) == 1 and rest[0] in VERSIONS, SYNTAX)
            self.begun, (self.most_premises, self.most_members) = True, VERSIONS[rest[0]]
        elif self.name is not None:
            forms = {"local": self.read_local, "end": self.read_end}
            forms.get(first, lambda words: self.read_call(first, words))(rest)
        else:
            forms = {"user": self.read_user, "premise": self.read_premise, "set": self.read_set, "cell": self.read_cell}
            forms["compound"] = self.read_compound
            require(first in forms, SYNTAX)
            forms[first](rest)

    def read_user(self, words):
        require(len(words) == 1 and is_name(words[0]), SYNTAX)
        require(words[0] not in self.users, DUPLICATE)
        require(len(self.users) < 64, LIMIT)
        self.users.append(words[0])

    def read_premise(self, words):
        require(len(words) == 1 or len(words) == 3 and words[1] == "of", SYNTAX)
        require(is_name(words[0]), SYNTAX)
        require(words[0] not in self.premises, DUPLICATE)
        owner = words[2] if len(words) == 3 else None
        require(owner is None or owner in self.users, UNKNOWN)
        require(len(self.premises) < self.most_premises, LIMIT)
        self.premises[words[0]] = owner

    def read_set(self, words):
        require(words and all(map(is_name, words)), SYNTAX)
        name, *members = words
        require(name not in self.kinds and len(set(members)) == len(members), DUPLICATE)
        require(len(members) >= 2, ARGUMENTS)
        require(len(members) <= self.most_members and len(self.kinds) < len(KINDS) + 32, LIMIT)
        self.kinds[name] = Members(members)

    def read_cell(self, words):
        require(len(words) == 2 and is_name(words[0]), SYNTAX)
        require(words[0] not in self.cells, DUPLICATE)
        require(words[1] in self.kinds, UNKNOWN)
        require(len(self.cells) < 1024, LIMIT)
        self.cells[words[0]] = self.kinds[words[1]]

    def read_compound(self, words):
        parameters, kinds = words[1::2], words[2::2]
        require(len(words) % 2 == 1 and all(map(is_name, [words[0], *parameters])), SYNTAX)
        require(words[0] not in self.callables and len(set(parameters)) == len(parameters), DUPLICATE)
        require(all(kind in self.kinds for kind in kinds), UNKNOWN)
        require(parameters, ARGUMENTS)
        require(len(parameters) <= 8 and self.compounds < 64, LIMIT)
        kinds = [self.kinds[kind] for kind in kinds]
        self.name, self.open = words[0], Callable(kinds, dict(zip(parameters, kinds)))

    def read_local(self, words):
        require(len(words) == 2 and is_name(words[0]), SYNTAX)
        require(words[0] not in self.open.cells, DUPLICATE)
        require(words[1] in self.kinds, UNKNOWN)
        self.lengthen(["local", *words], 0, 1)
        self.open.cells[words[0]] = self.kinds[words[1]]

    def read_call(self, name, words):
        require(words, SYNTAX)
        require(name in self.callables and all(word in self.open.cells for word in words), UNKNOWN)
        called = self.callables[name]
        require(called.accepts([self.open.cells[word] for word in words]), ARGUMENTS)
        self.lengthen([name, *words], called.procedures, called.inner)

    def lengthen(self, words, procedures, inner):
        """One more line of the open compound, which expands to so many more procedures and inner cells."""
        made = self.open
        procedures, inner = made.procedures + procedures, made.inner + inner
        require(max(procedures, inner) <= 256, LIMIT)
        made.procedures, made.inner = procedures, inner
        made.body.append(words)

    def read_end(self, words):
        require(not words, SYNTAX)
        self.callables[self.name], self.name = self.open, None
        self.compounds += 1

    def expanded(self, name, cells, inner):
        """The procedures that a callable over cells expands to, each by its name, inputs and output. Its inner cells are put into
        `inner`, with their kinds."""
        called = self.callables[name]
        if called.cells is None:
            return [(name, cells[:-1], cells[-1])]
        names, instances = dict(zip(called.cells, cells)), []
        for first, *words in called.body:
            if first == "local":
                names[words[0]] = object()
                inner[names[words[0]]] = called.cells[words[0]]
            else:
                instances += self.expanded(first, [names[word] for word in words], inner)
        return instances

    def counted(self):
        """What `check` says of what is declared."""
        counts = len(self.users), len(self.premises), len(self.cells), len(self.kinds) - len(KINDS), self.compounds
        return "ok users {} premises {} cells {} sets {} compounds {}".format(*counts)


def reading_of(text):
    """What a text declares, or else the line that tells its first fault."""
    if len(text) > 1_048_576:
        return None, f"declaration line 0: {LIMIT}"
    declared, number = Declared(), 0
    try:
        for number, line in enumerate(lines_of(text), 1):
            declared.read(line)
        number += 1
        require(declared.begun, SYNTAX)
        require(declared.name is None, END)
    except Refused as fault:
        return None, f"declaration line {number}: {fault}"
    return declared, None


def check_of(text):
    """What `check` says of a text, and its status."""
    declared, fault = reading_of(text)
    return (declared.counted(), 0) if declared else (fault, 1)
