"""Selection sets read from a query that the engine has checked: what data have to be made for.

Only checked texts come here, so nothing is told of faults; what the engine answers never rests on this reading.
"""

import re
from dataclasses import dataclass, field

TOKEN = re.compile(
    r'"""(?:[^"\\]|\\"""|\\|"(?!""))*"""|"(?:[^"\\\n]|\\.)*"|\.\.\.|[_A-Za-z][_0-9A-Za-z]*|-?[0-9][0-9.eE+-]*|[{}()\[\]:=!|&$@]'
)
IGNORED = re.compile(r"(?:[\s,\ufeff]|#[^\n\r]*)*")


@dataclass
class Field:
    """A field: its name, its arguments and what is selected in it."""

    name: str
    arguments: dict
    selections: list


@dataclass
class Fragment:
    """An inline fragment, or one of a document: its condition, if it has one, and its selections."""

    condition: object
    selections: list


@dataclass
class Spread:
    """A spread of the fragment of a name."""

    name: str


@dataclass
class Variable:
    """A variable in place of a value."""

    name: str


@dataclass
class Operation:
    """An operation: its kind, its name, the defaults of its variables and its selections."""

    kind: str
    name: object
    defaults: dict
    selections: list


@dataclass
class Document:
    """The operations of a document, and its fragments by name."""

    operations: list = field(default_factory=list)
    fragments: dict = field(default_factory=dict)

    def operation(self, name):
        """The operation of the name, or the only one; None where there is no such operation."""
        found = [it for it in self.operations if name is None or it.name == name]
        return found[0] if len(found) == 1 else None


def tokens(text):
    """The tokens of a query."""
    found, place = [], IGNORED.match(text).end()
    while place < len(text):
        token = TOKEN.match(text, place)
        if not token:
            raise ValueError(f"no token at {place}")
        found.append(token.group())
        place = IGNORED.match(text, token.end()).end()
    return found


class Reader:
    """Reads a document, token by token."""

    def __init__(self, text):
        self.tokens = [*tokens(text), ""]
        self.at = 0

    def peek(self):
        """The next token, which stays; no token at the end."""
        return self.tokens[self.at]

    def take(self):
        """The next token."""
        self.at += 1
        return self.tokens[self.at - 1]

    def skips(self, token):
        """Takes the next token if it is this one, and tells whether it was."""
        is_next = self.peek() == token
        self.at += is_next
        return is_next

    def document(self):
        """The whole document."""
        made = Document()
        while self.peek():
            if self.peek() == "fragment":
                self.take()
                name = self.take()
                self.take()
                condition = self.take()
                self.directives()
                made.fragments[name] = Fragment(condition, self.set())
            else:
                made.operations.append(self.operation())
        return made

    def operation(self):
        """An operation, which may be a set of selections alone."""
        if self.peek() == "{":
            return Operation("query", None, {}, self.set())
        kind = self.take()
        name = None if self.peek() in ("{", "(", "@") else self.take()
        defaults = self.variables() if self.skips("(") else {}
        self.directives()
        return Operation(kind, name, defaults, self.set())

    def variables(self):
        """The defaults of the variables that are defined, by name."""
        defaults = {}
        while not self.skips(")"):
            self.take()
            name = self.take()
            self.take()
            self.type()
            if self.skips("="):
                defaults[name] = self.value()
            self.directives()
        return defaults

    def type(self):
        """Goes past a reference to a type."""
        if self.skips("["):
            self.type()
        self.take()
        self.skips("!")

    def directives(self):
        """Goes past directives."""
        while self.skips("@"):
            self.take()
            self.arguments()

    def arguments(self):
        """Arguments by name, if there are any."""
        found = {}
        if self.skips("("):
            while not self.skips(")"):
                name = self.take()
                self.take()
                found[name] = self.value()
        return found

    def set(self):
        """What a set of selections has."""
        found = []
        self.take()
        while not self.skips("}"):
            found.append(self.fragment() if self.skips("...") else self.field())
        return found

    def fragment(self):
        """A spread or an inline fragment."""
        if self.peek() not in ("on", "@", "{"):
            name = self.take()
            self.directives()
            return Spread(name)
        condition = self.take() if self.skips("on") else None
        self.directives()
        return Fragment(condition, self.set())

    def field(self):
        """A field, its alias aside: plain data know none."""
        name = self.take()
        if self.skips(":"):
            name = self.take()
        arguments = self.arguments()
        self.directives()
        return Field(name, arguments, self.set() if self.peek() == "{" else [])

    def value(self):
        """A value; a variable stands for itself."""
        token = self.take()
        if token == "$":
            return Variable(self.take())
        if token == "[":
            return self.items()
        if token == "{":
            return self.members()
        if token.startswith('"'):
            return token.strip('"')
        constants = {"true": True, "false": False, "null": None}
        return constants.get(token, token)

    def items(self):
        """The items of a list."""
        found = []
        while not self.skips("]"):
            found.append(self.value())
        return found

    def members(self):
        """The members of an object."""
        found = {}
        while not self.skips("}"):
            name = self.take()
            self.take()
            found[name] = self.value()
        return found


def read(text):
    """The document of a checked query."""
    return Reader(text).document()


def depth(document, selections, known=None):
    """How deep fields are nested in selections, each spread replaced by what its fragment selects; `known` has those of fragments."""
    known = {} if known is None else known
    return max((one_depth(document, selection, known) for selection in selections), default=0)


def one_depth(document, selection, known):
    """The depth of one selection."""
    if isinstance(selection, Field):
        return 1 + depth(document, selection.selections, known)
    if isinstance(selection, Fragment):
        return depth(document, selection.selections, known)
    if selection.name not in known:
        fragment = document.fragments.get(selection.name)
        known[selection.name] = depth(document, fragment.selections, known) if fragment else 0
    return known[selection.name]
