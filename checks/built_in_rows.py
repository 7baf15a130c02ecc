#!/usr/bin/env python3
"""Compares the rows of the built-in definitions with their text: each row is what this script works out of it.

    checks/built_in_rows.py [--write]

The rows, in two files of crates/gql_schema, say where in the text of built_in_text.rt each part of a definition stands. After a
change of the text `--write` writes them anew. The text is taken as it is written there: each type and each directive in a line,
the scalars together in the last one, and no descriptions. What has another form is refused.
"""
import re
import sys

from shared.sources import ROOT, tell

SOURCES = ROOT / "crates" / "gql_schema" / "src"

# The text, between the quotes of its constant.
CONSTANT = re.compile(r'BUILT_IN_TEXT: &str = "\\\n(.*?)";', re.DOTALL)

# The parts of the text: punctuators, names and strings on one line.
TOKEN = re.compile(r'[!(){}:=@|\[\]]|\w+|"[^"]*"')

# How a reference to a type is written, by what stands round its name.
FORMS = {("", ""): "Plain", ("", "!"): "Required", ("[", "!]"): "List", ("[", "!]!"): "RequiredList"}

HEAD_OF_ROWS = """//! The rows of the types and the directives that are built in: where in their text each part of them stands.

use crate::built_in_row::DefinitionRow::{Enum, Object, Scalar};
use crate::built_in_row::{DefinitionRow, DirectiveRow, EnumRow, ObjectRow, Place, Run, ScalarRow};
use gql_ast::DirectiveLocation;
"""

HEAD_OF_FIELDS = """//! The rows of the fields and the arguments of built-in definitions: where in their text each part of them stands.

use crate::built_in_row::TypeForm::{List, Plain, Required, RequiredList};
use crate::built_in_row::ValueForm::{False, Quoted};
use crate::built_in_row::{ArgumentRow, FieldRow, Place, Run, TypeRow, ValueRow};
"""


class Refused(Exception):
    """The text is written in another way than this script knows."""


class Reader:
    """Reads the text token by token, and keeps the rows of each table."""

    def __init__(self, text):
        self.tokens = [(found.group(), found.start(), found.end()) for found in TOKEN.finditer(text)]
        self.at = 0
        self.types, self.directives, self.values, self.locations = [], [], [], []
        self.fields, self.arguments = [], []

    def next(self):
        """The next token as it is written, or nothing at the end."""
        return self.tokens[self.at][0] if self.at < len(self.tokens) else ""

    def begin(self):
        """The first byte of the next token."""
        return self.tokens[self.at][1]

    def behind(self):
        """The first byte behind the last token."""
        return self.tokens[self.at - 1][2]

    def take(self, wanted=None):
        """Takes a token: this one, or else a name. Gives how it is written, and its place."""
        if self.at == len(self.tokens):
            raise Refused(f"the end, and not {wanted or 'a name'}")
        written, begin, end = self.tokens[self.at]
        if written != wanted and (wanted or not re.fullmatch(r"\w+", written)):
            raise Refused(f"`{written}` at {begin}, and not {wanted or 'a name'}")
        self.at += 1
        return written, place(begin, end)

    def read(self):
        """Reads the whole text."""
        readers = {"type": self.object, "enum": self.enum, "directive": self.directive, "scalar": self.scalar}
        while self.at < len(self.tokens):
            if self.next() not in readers:
                raise Refused(f"`{self.next()}` at {self.begin()}, where a definition begins")
            begin = self.begin()
            readers[self.take()[0]](begin)

    def object(self, begin):
        owner, name = self.take()
        self.take("{")
        first = count(self.fields)
        self.fields.append(f"    // {owner}")
        while self.next() != "}":
            self.field(owner)
        self.take("}")
        fields = f"Run({first}, {count(self.fields)})"
        self.types.append(row("Object(ObjectRow", [f"name: {name}", f"fields: {fields}", f"place: {place(begin, self.behind())}"], "})"))

    def enum(self, begin):
        owner, name = self.take()
        self.take("{")
        first = count(self.values)
        self.values.append(f"    // {owner}")
        while self.next() != "}":
            self.values.append(f"    {self.take()[1]},")
        self.take("}")
        values = f"Run({first}, {count(self.values)})"
        self.types.append(row("Enum(EnumRow", [f"name: {name}", f"values: {values}", f"place: {place(begin, self.behind())}"], "})"))

    def scalar(self, begin):
        name = self.take()[1]
        self.types.append(row("Scalar(ScalarRow", [f"name: {name}", f"place: {place(begin, self.behind())}"], "})"))

    def directive(self, begin):
        self.take("@")
        written, name = self.take()
        arguments = self.all_arguments(f"@{written}")
        self.take("on")
        first = count(self.locations)
        self.locations.append(f"    // @{written}")
        self.location()
        while self.next() == "|":
            self.take("|")
            self.location()
        locations = f"Run({first}, {count(self.locations)})"
        parts = [f"name: {name}", f"arguments: {arguments}", f"locations: {locations}", f"place: {place(begin, self.behind())}"]
        self.directives.append(row("DirectiveRow", parts, "}"))

    def location(self):
        camel = "".join(word.capitalize() for word in self.take()[0].split("_"))
        self.locations.append(f"    DirectiveLocation::{camel},")

    def field(self, owner):
        begin = self.begin()
        written, name = self.take()
        arguments = self.all_arguments(f"{owner}.{written}")
        self.take(":")
        ty = self.type_row()
        parts = [f"name: {name}", f"arguments: {arguments}", f"ty: {ty}", f"place: {place(begin, self.behind())}"]
        self.fields.append(row("FieldRow", parts, "}"))

    def all_arguments(self, owner):
        """The run of the arguments that stand here, if there are any."""
        first = count(self.arguments)
        if self.next() == "(":
            self.take("(")
            self.arguments.append(f"    // {owner}")
            while self.next() != ")":
                self.argument()
            self.take(")")
        return f"Run({first}, {count(self.arguments)})"

    def argument(self):
        begin = self.begin()
        name = self.take()[1]
        self.take(":")
        ty = self.type_row()
        default = self.default_row()
        parts = [f"name: {name}", f"ty: {ty}", f"default_value: {default}", f"place: {place(begin, self.behind())}"]
        self.arguments.append(row("ArgumentRow", parts, "}"))

    def type_row(self):
        opened = closed = ""
        if self.next() == "[":
            opened = self.take("[")[0]
        name = self.take()[1]
        while self.next() in ("!", "]"):
            closed += self.take(self.next())[0]
        if (opened, closed) not in FORMS:
            raise Refused(f"a type `{opened}..{closed}` before {self.behind()}")
        return f"TypeRow({FORMS[opened, closed]}, {name})"

    def default_row(self):
        if self.next() != "=":
            return "None"
        self.take("=")
        written, value = self.take(self.next())
        if written != "false" and not re.fullmatch(r'"[^"\\]*"', written):
            raise Refused(f"a default `{written}`")
        return f"Some(ValueRow({'False' if written == 'false' else 'Quoted'}, {value}))"


def place(begin, end):
    return f"Place({begin}, {end})"


def row(head, parts, close):
    return "\n".join([f"    {head} {{", *(f"        {part}," for part in parts), f"    {close},"])


def count(rows):
    """How many rows there are, comments left out."""
    return sum(not one.startswith("    //") for one in rows)


def table(says, name, of, rows):
    return f"\n/// {says}\npub(crate) const {name}: &[{of}] = &[\n" + "\n".join(rows) + "\n];\n"


def files():
    """The two files of rows, by their names."""
    found = CONSTANT.search((SOURCES / "built_in_text.rt").read_text(encoding="utf-8"))
    if not found:
        raise Refused("there is no text in built_in_text.rt")
    reader = Reader(found.group(1).replace("\\n\\\n", "\n").replace('\\"', '"'))
    reader.read()
    return {
        "built_in_rows.rt": HEAD_OF_ROWS
        + table("The types, in the order of the text.", "TYPES", "DefinitionRow", reader.types)
        + table("The directives, in the order of the text.", "DIRECTIVES", "DirectiveRow", reader.directives)
        + table("The values of the enum types.", "VALUES", "Place", reader.values)
        + table("Where the directives may stand.", "LOCATIONS", "DirectiveLocation", reader.locations),
        "built_in_field_rows.rt": HEAD_OF_FIELDS
        + table("The fields of the object types.", "FIELDS", "FieldRow", reader.fields)
        + table("The arguments of the fields and the directives.", "ARGUMENTS", "ArgumentRow", reader.arguments),
    }


def faults():
    try:
        made = files()
    except Refused as fault:
        yield f"built_in_text.rt: {fault}"
        return
    for name, text in made.items():
        if "--write" in sys.argv[1:]:
            (SOURCES / name).write_text(text, encoding="utf-8")
        elif (SOURCES / name).read_text(encoding="utf-8") != text:
            yield f"{name} has other rows than the text; run checks/built_in_rows.py --write"


if __name__ == "__main__":
    sys.exit(tell("built_in_rows", list(faults())))
