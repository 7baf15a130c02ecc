"""What resolvers give, as the JSON that the library reads.

A value is a leaf as it stands, an object of the caller's as ``{"object": 7, "type": "Book"}`` by the number that it has here, or a failure as
``{"__error": "text"}``. What has no such JSON is a failure too, so that one value never spoils the others."""

from __future__ import annotations

import enum
from json.encoder import encode_basestring as _quoted
from typing import Any, Dict, Iterable, List, Mapping, Optional, Tuple

from ._field_types import FieldType
from ._resolvers import PLAIN, Resolvers

# A text of answers is nested at most 127 deep, and a value stands in the list of answers and in its answer.
_DEEPEST = 125

# The numbers that the library reads.
_LEAST, _MOST = -(2**63), 2**64 - 1


def text(value: str) -> str:
    """The JSON of a text. A half of a surrogate pair, which no UTF-8 has, is a question mark."""
    return _quoted(value if value.isascii() else value.encode("utf-8", "replace").decode("utf-8"))


def failure(message: str) -> str:
    """The failure with this text."""
    return f'{{"__error":{text(message)}}}'


class Teller:
    """Tells the values of one request, and keeps its objects by their numbers. The root is 0."""

    __slots__ = ("_numbers", "objects", "resolvers")

    def __init__(self, root: Any, resolvers: Resolvers):
        #: The objects of each number. They are kept, so that none takes the identity of another.
        self.objects: List[Any] = [root]
        self._numbers: Dict[Tuple[str, int], int] = {}
        self.resolvers = resolvers

    def forget(self) -> None:
        """From now on objects have new numbers: what was told of them is asked again."""
        self._numbers.clear()

    def told(self, value: Any, ty: FieldType) -> str:
        """The value of a field of that type."""
        try:
            return self._at(value, ty, ty.lists)
        except Exception as error:  # an iterator's, or that of a function of the caller's
            return self.failed(error)

    def failed(self, error: Exception) -> str:
        return failure(self.resolvers._message(error))

    def _at(self, value: Any, ty: FieldType, lists: int) -> str:
        if value is None:
            return "null"
        if isinstance(value, Exception):
            return self.failed(value)
        if lists:
            items = _items(value)
            if items is not None:
                return f"[{','.join([self._at(item, ty, lists - 1) for item in items])}]"
        elif not ty.is_leaf:
            return self._composite(value, ty)
        return _leaf(value, ty)

    def _composite(self, value: Any, ty: FieldType) -> str:
        """A value at an object, an interface or a union type."""
        kind = type(value)
        if kind is list or kind is tuple:
            return "[]"  # a list, and so none of its items, where there should be an object
        members = value if kind is dict or isinstance(value, Mapping) else None
        if members is not None and isinstance(members.get("__error"), str):
            return failure(members["__error"])
        name = self.resolvers._name_of(value, members, ty)
        if kind in PLAIN and not self.resolvers._has(name):
            return _leaf(value, ty)
        return self._object(value, name)

    def _object(self, value: Any, name: str) -> str:
        # As another type it is another object: the fields of the two may have the same names.
        key = (name, id(value))
        number = self._numbers.get(key)
        if number is None:
            number = self._numbers[key] = len(self.objects)
            self.objects.append(value)
        return f'{{"object":{number},"type":{text(name)}}}'


def _items(value: Any) -> Optional[Iterable[Any]]:
    """The items of a list; None where the value is none."""
    kind = type(value)
    if kind is list or kind is tuple:
        return value
    if isinstance(value, (str, bytes, Mapping)) or not hasattr(kind, "__iter__"):
        return None
    return value


class _Untold(Exception):
    """A value has no JSON that the library reads."""


def _leaf(value: Any, ty: FieldType) -> str:
    """A value as it stands."""
    kind = type(value)
    if kind is str and value.isascii():
        return _quoted(value)
    if kind is int and _LEAST <= value <= _MOST:
        return str(value)
    try:
        return _json(value, ty.is_enum, _DEEPEST - ty.lists)
    except _Untold as why:
        return failure(str(why))


def _json(value: Any, by_name: bool, levels: int) -> str:
    """The JSON of a value nested at most so deep. A member of an enumeration is told by its name or by its value."""
    if value is None:
        return "null"
    if isinstance(value, enum.Enum):
        return _json(value.name if by_name else value.value, False, levels)
    if isinstance(value, str):
        return text(value)
    if isinstance(value, bool):
        return "true" if value else "false"
    if isinstance(value, (int, float)):
        return _number(value)
    if not isinstance(value, (Mapping, list, tuple)):
        raise _Untold(f"a value of the type {type(value).__name__} has no JSON")
    if levels == 0:
        raise _Untold("a value is nested too deep")
    if not isinstance(value, Mapping):
        return f"[{','.join([_json(item, by_name, levels - 1) for item in value])}]"
    return f"{{{','.join([_key(name) + ':' + _json(member, by_name, levels - 1) for name, member in value.items()])}}}"


def _key(name: Any) -> str:
    if not isinstance(name, str):
        raise _Untold(f"a key of the type {type(name).__name__} has no JSON")
    return text(name)


def _number(value: Any) -> str:
    if isinstance(value, float):
        if not value.is_integer():
            raise _Untold(f"{value} is no whole number")
        value = int(value)
    if not _LEAST <= value <= _MOST:
        raise _Untold("a number does not fit 64 bits")
    return int.__repr__(value)
