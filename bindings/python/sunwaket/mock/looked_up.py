"""Objects of plain data that are found by the argument `id`: `user(id: "2")` in the list that the data have as `user` or `users`."""

from .collecting import fields_on
from .schema_types import inner_name, without_non_null
from .._selections import Variable

TWO = "the data cannot give two values of one field: ask for them in two requests"


def given_id(field, variables, defaults):
    """The id that a field is given, as a text; None where it has none."""
    value = field.arguments.get("id")
    if isinstance(value, Variable):
        value = variables.get(value.name, defaults.get(value.name))
    return None if value is None else str(value)


def candidates(members, name):
    """The list that the data have under the name of a field, or under its plural."""
    for key in (name, name + "s"):
        if isinstance(members.get(key), list):
            return members[key]
    return None


def found(items, wanted):
    """The first object of a list with this id; None where there is none."""
    return next((it for it in items if isinstance(it, dict) and str(it.get("id")) == wanted), None)


class LookedUp:
    """The root of an operation, with the objects in place that its root fields ask for by id."""

    def __init__(self, types, document, variables):
        self.types, self.document, self.variables = types, document, variables

    def root(self, operation, members):
        """The members of the root: a field of no list that is given an id has the object of that id."""
        name = self.types.roots.get(operation.kind)
        fields = self.types.by_name[name].fields if name else {}
        placed = {}
        for field in fields_on(self.types, self.document, name, [operation.selections]):
            wanted = given_id(field, self.variables, operation.defaults)
            reference = fields.get(field.name)
            items = candidates(members, field.name)
            if wanted is None or reference is None or items is None or without_non_null(reference)["kind"] == "LIST":
                continue
            if self.types.by_name[inner_name(reference)].kind in ("SCALAR", "ENUM"):
                continue
            one = found(items, wanted)
            placed[field.name] = one if placed.get(field.name, one) is one else {"__error": TWO}
        return {**members, **placed} if placed else members
