"""Data that are made up for a query, by types and names: the same for the same seed, schema and query."""

import zlib

from .collecting import fields_on
from .schema_types import COMPOSITE, inner_name, without_non_null

# How many items each list has.
ITEMS = 2


class MadeUp:
    """Makes the data that one operation asks for.

    Lists have two items, enums their first value, abstract types the first of their object types; ids are counted type by type. A
    field of one name is one value on its object, whatever its alias and its arguments.
    """

    def __init__(self, types, document, seed=0):
        self.types, self.document, self.seed = types, document, seed
        self.counts = {}

    def root(self, operation):
        """The object that the operation begins at."""
        return self.object(self.types.roots.get(operation.kind), [operation.selections])

    def object(self, name, sets):
        """An object of this type, for the selections of these sets."""
        self.counts[name] = number = self.counts.get(name, 0) + 1
        made, below_fields = {"__typename": name}, {}
        for field in fields_on(self.types, self.document, name, sets):
            below_fields.setdefault(field.name, []).append(field.selections)
        for field, below in below_fields.items():
            reference = self.types.by_name[name].fields.get(field)
            if reference:
                made[field] = self.value(reference, field, number, below)
        return made

    def value(self, reference, field, number, below):
        """A value at this type, for a field of the object of this number."""
        reference = without_non_null(reference)
        if reference["kind"] == "LIST":
            return [self.value(reference["ofType"], field, ITEMS * number - ITEMS + at, below) for at in range(1, ITEMS + 1)]
        found = self.types.by_name[inner_name(reference)]
        if found.kind in COMPOSITE:
            name = found.name if found.kind == "OBJECT" else self.chosen(found.possible)
            return self.object(name, below) if name else None
        if found.kind == "ENUM":
            return found.values[0]
        return self.leaf(found.name, field, number)

    def chosen(self, names):
        """The object type that an abstract type is."""
        return names[self.seed % len(names)] if names else None

    def leaf(self, scalar, field, number):
        """A value of a scalar."""
        if scalar == "ID":
            return str(number)
        if scalar == "Boolean":
            return bool(self.mixed(field, number) % 2)
        if scalar in ("Int", "Float"):
            return self.mixed(field, number) % 100
        return f"{field} {number}"

    def mixed(self, field, number):
        """A number that is told by the seed, the field and the object."""
        return zlib.crc32(f"{self.seed} {field} {number}".encode())
