"""The types of a schema's fields, which the schema tells of itself."""

from __future__ import annotations

import json
from typing import Any, Callable, Dict, NamedTuple, Optional

# How many types of lists and of strict values are asked for within the type of a field: first so many, then as many as a query may.
_DEPTHS = (8, 480)

_INTROSPECTION = "{ __schema { types { kind name fields(includeDeprecated: true) { name type { %s } } } } }"


class FieldType(NamedTuple):
    """The type of a field: in how many lists its named type stands, the name of that, and what it is."""

    lists: int
    name: str
    is_leaf: bool
    is_enum: bool
    is_abstract: bool


#: The types of the fields of each object type.
FieldTypes = Dict[str, Dict[str, FieldType]]


class SchemaFields:
    """The types of the fields of a schema's object types, asked for once, when they are first needed.

    ``read`` gives the query of a text against the schema."""

    __slots__ = ("_read", "_types")

    def __init__(self, read: Callable[[str], Any]):
        self._read = read
        self._types: Optional[FieldTypes] = None

    def types(self) -> FieldTypes:
        if self._types is None:
            self._types = self._asked()
        return self._types

    def _asked(self) -> FieldTypes:
        for depth in _DEPTHS:
            asked = "kind name " + "ofType { kind name " * depth + "}" * depth
            response = self._read(_INTROSPECTION % asked).execute(introspection=True)
            try:
                return _types_of(json.loads(response)["data"]["__schema"]["types"])
            except _Deeper:
                continue
        raise ValueError("the type of a field is nested too deep")


class _Deeper(Exception):
    """A type is nested deeper than was asked for."""


def _types_of(told: Any) -> FieldTypes:
    objects = (it for it in told if it["kind"] == "OBJECT" and not it["name"].startswith("__"))
    return {it["name"]: {field["name"]: _type_of(field["type"]) for field in it["fields"]} for it in objects}


def _type_of(told: Any) -> FieldType:
    lists = 0
    while told["name"] is None:
        lists += told["kind"] == "LIST"
        if told.get("ofType") is None:
            raise _Deeper
        told = told["ofType"]
    kind = told["kind"]
    return FieldType(lists, told["name"], kind in ("SCALAR", "ENUM"), kind == "ENUM", kind in ("INTERFACE", "UNION"))
