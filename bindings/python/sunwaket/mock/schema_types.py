"""The types of a schema, as introspection tells them."""

import json
from dataclasses import dataclass

REFERENCE = "kind name ofType { " * 8 + "kind name" + " }" * 8
QUERY = f"""{{ __schema {{
  queryType {{ name }} mutationType {{ name }} subscriptionType {{ name }}
  types {{ kind name fields(includeDeprecated: true) {{ name args {{ name }} type {{ {REFERENCE} }} }}
    enumValues {{ name }} possibleTypes {{ name }} }} }} }}"""

COMPOSITE = ("OBJECT", "INTERFACE", "UNION")


@dataclass(frozen=True)
class Named:
    """A type by its name: its kind, its fields with their types and arguments, its values, and the object types that it may be."""

    kind: str
    name: str
    fields: dict
    arguments: dict
    values: tuple
    possible: tuple


@dataclass(frozen=True)
class Types:
    """The types of a schema by name, and the names of its roots by kind of operation."""

    by_name: dict
    roots: dict

    def stands_for(self, object_type, condition):
        """Whether a fragment with this condition applies to objects of the type."""
        if condition is None or condition == object_type:
            return True
        found = self.by_name.get(condition)
        return found is not None and object_type in found.possible


def named(told):
    """A type as introspection tells it."""
    fields = told["fields"] or []
    return Named(
        told["kind"],
        told["name"],
        {it["name"]: it["type"] for it in fields},
        {it["name"]: tuple(argument["name"] for argument in it["args"]) for it in fields},
        tuple(it["name"] for it in told["enumValues"] or []),
        tuple(it["name"] for it in told["possibleTypes"] or []),
    )


def types_of(schema):
    """The types of a `sunwaket.Schema`."""
    with schema.query(QUERY) as query:
        told = json.loads(query.execute({}, introspection=True))["data"]["__schema"]
    kinds = ("query", "mutation", "subscription")
    roots = {kind: told[kind + "Type"]["name"] for kind in kinds if told[kind + "Type"]}
    return Types({it["name"]: named(it) for it in told["types"]}, roots)


def without_non_null(reference):
    """A reference to a type, as it is where null is not ruled out."""
    return reference["ofType"] if reference["kind"] == "NON_NULL" else reference


def inner_name(reference):
    """The name within all lists of a reference."""
    while reference.get("ofType"):
        reference = reference["ofType"]
    return reference["name"]
