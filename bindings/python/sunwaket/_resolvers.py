"""Resolvers of fields."""

from __future__ import annotations

from functools import lru_cache
from typing import Any, Callable, Dict, List, Mapping, Optional, Tuple, Union

from ._field_types import FieldType, FieldTypes

#: The values of a field's arguments by their names.
Arguments = Dict[str, Any]

#: What is asked of a field: an object, and the arguments.
Ask = Tuple[Any, Arguments]

# Values of these types have no fields of their own.
PLAIN = frozenset((str, int, float, bool, bytes, type(None)))


class Many:
    """A resolver of a field for all objects of a round at once. :func:`many` makes it."""

    __slots__ = ("function",)

    def __init__(self, function: Callable[[List[Ask]], Any]):
        self.function = function


def many(function: Callable[[List[Ask]], Any]) -> Many:
    """A resolver that is called once for all that is asked of its field in a round: a list of objects, each with the arguments.

    It gives as many values in the same order; a value that is an exception is the error of its field.

    >>> @many
    ... def authors(asks):
    ...     names = {1: "Jane Austen", 2: "Mary Shelley"}  # one look for all of them
    ...     return [names[book["by"]] for book, arguments in asks]
    >>> schema = Schema("type Query { books: [Book] } type Book { title: String author: String }")
    >>> root = {"books": [{"title": "Emma", "by": 1}, {"title": "Frankenstein", "by": 2}]}
    >>> schema.query("{ books { author } }").resolve(root, {"Book": {"author": authors}})
    b'{"data":{"books":[{"author":"Jane Austen"},{"author":"Mary Shelley"}]}}'
    """
    return Many(function)


#: A resolver of a field: what it gives is the value of the field, or, under ``resolve_async``, may be awaited for it.
Resolver = Union[Many, Callable[[Any, Arguments], Any]]


def _text_of(error: Exception) -> str:
    return str(error) or type(error).__name__


class Resolvers:
    """Resolvers of fields by the names of their object types, for any number of requests.

    A resolver gives a text, a whole number, a truth value, ``None``, a member of an enumeration, or what JSON is of these; at an object,
    an interface or a union type any value, which is the object that the fields below are asked of; at a list type anything that
    can be gone through, of these. A text or a number is an object of a type only where that type has resolvers here. An exception that
    it raises, or that it gives as a value, is the error of its field, with its text.

    ``type_of`` gives the name of an object's type at an interface or a union type. Without it, and where it gives ``None``, that is the
    object's own ``__typename``, a member of a mapping or an attribute, and else the name of its class. ``error_message`` gives the text
    that clients are told of an exception, where that is not its own.

    >>> class Cat:
    ...     name = "Tom"
    >>> schema = Schema("type Query { pet: Pet lost: Pet } union Pet = Cat type Cat { name: String }")
    >>> def lost(root, arguments):
    ...     raise LookupError("gone since Monday")
    >>> resolvers = Resolvers({"Query": {"lost": lost}}, error_message=lambda error: "not found")
    >>> print(schema.query("{ pet { ... on Cat { name } } }").resolve({"pet": Cat()}, resolvers).decode())
    {"data":{"pet":{"name":"Tom"}}}
    >>> json.loads(schema.query("{ lost { __typename } }").resolve(None, resolvers))["errors"][0]["message"]
    'resolver error: not found'
    """

    __slots__ = ("_checked", "_error_message", "_given", "_type_of")

    def __init__(
        self,
        fields: Optional[Mapping[str, Mapping[str, Resolver]]] = None,
        *,
        type_of: Optional[Callable[[Any], Optional[str]]] = None,
        error_message: Callable[[Exception], str] = _text_of,
    ):
        self._given = {name: dict(resolvers) for name, resolvers in (fields or {}).items()}
        self._type_of = type_of
        self._error_message = error_message
        self._checked: Optional[FieldTypes] = None

    def _check(self, types: FieldTypes) -> None:
        """Raises where one is of a field that the schema lacks."""
        if self._checked is types or not self._given:
            return
        for name, resolvers in self._given.items():
            if name not in types:
                raise ValueError(f"there are resolvers of `{name}`, which is no object type of the schema")
            for field in resolvers:
                if field not in types[name]:
                    raise ValueError(f"there is a resolver of `{name}.{field}`, which is no field of the schema")
        self._checked = types

    def _of(self, type_name: str, field: str) -> Resolver:
        """The resolver of a field."""
        given = self._given.get(type_name)
        return (given.get(field) if given else None) or _member(field)

    def _has(self, type_name: str) -> bool:
        """Whether there are resolvers of a type."""
        return type_name in self._given

    def _message(self, error: Exception) -> str:
        """What clients are told of an exception."""
        return self._error_message(error)

    def _name_of(self, value: Any, members: Optional[Mapping[str, Any]], ty: FieldType) -> str:
        """The name of an object's type, where a field of this type gives it. A mapping is its members too."""
        if ty.is_abstract and self._type_of is not None:
            told = self._type_of(value)
            if told is not None:
                return told
        if members is not None:
            told = members.get("__typename")
            return told if isinstance(told, str) else ty.name
        if not ty.is_abstract:
            return ty.name
        told = getattr(value, "__typename", None)
        return told if isinstance(told, str) else type(value).__name__


#: Resolvers, or the functions that they are made of.
GivenResolvers = Union[Resolvers, Mapping[str, Mapping[str, Resolver]], None]


_NONE = Resolvers()


def as_resolvers(given: GivenResolvers) -> Resolvers:
    if given is None:
        return _NONE
    return given if isinstance(given, Resolvers) else Resolvers(given)


@lru_cache(maxsize=4096)
def _member(field: str) -> Resolver:
    """The resolver that gives what the object itself has."""

    def resolve(source: Any, arguments: Arguments) -> Any:
        kind = type(source)
        if kind is dict:
            value = source.get(field)
        elif kind in PLAIN:
            return None
        else:
            value = source.get(field) if isinstance(source, Mapping) else getattr(source, field, None)
        return value(**arguments) if callable(value) else value

    return resolve
