"""The words of the command line and the grammar of a script, for tools/model.py: docs/PROGRAM.md and docs/SCRIPT.md."""
import re
from typing import NamedTuple

LINE_BYTES_MOST = 4096
VARIABLES_MOST = 1024
FIELD_NAMES_MOST = 4096
TURNS_MOST = 20_000_000
OPEN_MOST = 4
CAP_MOST = 8
INTEGER_LEAST, INTEGER_MOST = -(1 << 63), (1 << 63) - 1


class Sizes(NamedTuple):
    """The sizes of a heap."""

    pages: int = 64
    young: int = 8192
    helpers: int = 2


class Invocation(NamedTuple):
    """What the words ask for: a command, the sizes of its heap, and the seed and the number of forms of a script."""

    command: str
    sizes: Sizes
    seed: int = 0
    forms: int = 0

    def reads_source(self):
        """Whether the command reads a script; the others generate one."""
        return self.command in ("run", "check")


LIMITS = {b"pages": (1, 512), b"young": (64, 65536), b"helpers": (0, 7)}
PLAN = [(0, (1 << 64) - 1), (0, 30_000)]
# Whether each command takes options, and the limits of its other words.
COMMANDS = {b"run": (True, []), b"check": (True, []), b"soak": (True, PLAN), b"gen": (False, PLAN)}


def given_of(words):
    """The texts of the options by their names, and the other words; nothing where a word is refused."""
    texts, others, awaited = {}, [], None
    for place, word in enumerate(words, 1):
        if awaited is not None:
            name, text, awaited = awaited, word, None
        elif word == b"--":
            return texts, others + words[place:]
        elif word.startswith(b"--") and b"=" in word:
            name, _, text = word[2:].partition(b"=")
        elif word.startswith(b"--"):
            awaited = word[2:]
            continue
        elif word.startswith(b"-"):
            return None
        else:
            others.append(word)
            continue
        if name in texts or name not in LIMITS:
            return None
        texts[name] = text
    return (texts, others) if awaited is None else None


def number_in(limits, text):
    """The number that a text of digits alone is, within these limits; nothing where it is none."""
    digits = re.fullmatch(rb"0*([0-9]{1,20})", text)
    return int(digits[1]) if digits and limits[0] <= int(digits[1]) <= limits[1] else None


def invocation_of(words):
    """What the words ask for; nothing where they are refused."""
    words = [word if isinstance(word, bytes) else word.encode() for word in words]
    given = given_of(words[1:])
    if not words or words[0] not in COMMANDS or given is None:
        return None
    (texts, others), (takes_options, limits) = given, COMMANDS[words[0]]
    if texts and not takes_options or len(others) != len(limits):
        return None
    sizes = {name.decode(): number_in(LIMITS[name], text) for name, text in texts.items()}
    plan = [number_in(*it) for it in zip(limits, others)]
    if None in [*sizes.values(), *plan]:
        return None
    return Invocation(words[0].decode(), Sizes(**sizes), *plan)


class Refused(Exception):
    """A line is refused: its number, and the reason."""


class Variable(NamedTuple):
    """A variable, by its number; as a value, what it is bound to."""

    number: int


class Line(NamedTuple):
    """A line that is executed: its number in the source, the command and the operands."""

    number: int
    command: str
    operands: list


# What the operands of each command are: a variable, a field, a value, or an integer up to a number.
X, F, V = "variable", "field", "value"
OPERANDS = {
    "new": (X, CAP_MOST), "list": (X,), "weak": (X,), "let": (X, V), "drop": (X,), "add": (X, V), "set": (X, F, V),
    "get": (X, X, F), "del": (X, F), "push": (X, V), "put": (X, V, V), "at": (X, X, V), "shift": (X, V),
    "trunc": (X, V), "wput": (X, V, V), "wget": (X, X, V), "wdel": (X, V), "print": (V,), "same": (V, V),
    "alike": (X, X), "shape": (X,), "scavenge": (), "mark": (), "finish": (), "gc": (), "census": (),
    "repeat": (TURNS_MOST,), "end": (),
}
# The commands that a script of each version may have.
VERSIONS = {1: OPERANDS, 2: {**OPERANDS, "proto": (X, V)}}
NAME = re.compile(rb"[A-Za-z_][A-Za-z0-9_]{0,31}")
INTEGER = re.compile(rb"0|-?[1-9][0-9]{0,18}")


def integer_of(token):
    """The integer that a token is, if it is one of 64 bits."""
    if not INTEGER.fullmatch(token) or not INTEGER_LEAST <= int(token) <= INTEGER_MOST:
        return None
    return int(token)


def is_name(token):
    """Whether a token is a name."""
    return bool(NAME.fullmatch(token)) and token != b"undefined"


def version_of(number, tokens):
    """The version that the first line with tokens gives a script: that of a line `version n`, and else 1."""
    if tokens[0] != b"version":
        return 1
    if len(tokens) != 2:
        raise Refused(number, "count")
    if integer_of(tokens[1]) not in VERSIONS:
        raise Refused(number, "integer")
    return integer_of(tokens[1])


class Reader:
    """Reads a source line by line. Variables are numbered in the order in which they are named."""

    def __init__(self):
        self.lines, self.opened = [], []
        # The version of the script, once its first line with tokens was read.
        self.version = None
        self.variables, self.fields = {}, {}
        self.past_names = None

    def operand(self, number, kind, token):
        """What a token stands for at a place of this kind."""
        integer = integer_of(token)
        if kind in (X, F) and not is_name(token):
            raise Refused(number, "name")
        if isinstance(kind, int):
            if integer is None or not 0 <= integer <= kind:
                raise Refused(number, "integer")
            return integer
        if kind == V and integer is not None:
            return integer
        if kind == V and token == b"undefined":
            return None
        if not is_name(token):
            raise Refused(number, "value")
        names = self.fields if kind == F else self.variables
        named = names.setdefault(token, len(names))
        if self.past_names is None and (len(self.variables) > VARIABLES_MOST or len(self.fields) > FIELD_NAMES_MOST):
            self.past_names = number
        return token if kind == F else Variable(named)

    def read(self, number, line):
        """Reads a line."""
        if len(line) > LINE_BYTES_MOST:
            raise Refused(number, "long")
        tokens = re.findall(rb"[^ \t\r]+", line.partition(b"#")[0])
        if not tokens:
            return
        if self.version is None:
            self.version = version_of(number, tokens)
            if tokens[0] == b"version":
                return
        command, commands = tokens[0].decode("latin-1"), VERSIONS[self.version]
        if command not in commands:
            raise Refused(number, "command")
        if len(tokens) - 1 != len(commands[command]):
            raise Refused(number, "count")
        operands = [self.operand(number, kind, token) for kind, token in zip(commands[command], tokens[1:])]
        self.nest(number, command, operands)
        self.lines.append(Line(number, command, operands))

    def nest(self, number, command, operands):
        """Opens or closes a block. A `repeat` and an `end` have the place of the other as an operand more."""
        if command == "repeat":
            if len(self.opened) == OPEN_MOST:
                raise Refused(number, "nesting")
            self.opened.append(len(self.lines))
        elif command == "end":
            if not self.opened:
                raise Refused(number, "end")
            operands.append(self.opened.pop())
            self.lines[operands[0]].operands.append(len(self.lines))

    def close(self):
        """Judges what can be judged at the end of the source alone."""
        if self.opened:
            raise Refused(self.lines[self.opened[-1]].number, "open")
        if self.past_names is not None:
            raise Refused(self.past_names, "names")
