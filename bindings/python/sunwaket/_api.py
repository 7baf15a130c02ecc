"""Schemas, and what is answered at once."""

from __future__ import annotations

from ctypes import byref
from typing import Any, Optional, Union

from . import _library as library
from ._base import Data, Json, Value, refuse, take, text_bytes
from ._errors import QueryRefused, SchemaRefused
from ._field_types import SchemaFields
from ._query import Query

_number = library.version()

#: The version of the library.
VERSION = f"{_number >> 16}.{_number >> 8 & 255}.{_number & 255}"


class Schema(Value):
    """A schema, read and checked once.

    ``text`` is what the schema definition language says; it may be nested 500 deep. :class:`SchemaRefused` is raised where it means
    no schema.

    >>> Schema("type Query { a: Int }").query("{ a }").execute({"a": 7})
    b'{"data":{"a":7}}'
    >>> Schema("type Query { a: Missing }")
    Traceback (most recent call last):
    sunwaket.SchemaRefused: cannot find type `Missing` in this document
    """

    __slots__ = ("_fields",)

    def __init__(self, text: Union[str, bytes]):
        super().__init__()
        self._fields: Optional[SchemaFields] = None
        given, reply = text_bytes(text), library.Handle()
        status = library.schema_new(given, len(given), byref(self._handle), byref(reply))
        if status == library.REFUSED:
            raise SchemaRefused(take(reply))
        if status != library.ANSWERED:
            raise refuse(status, "the schema is no UTF-8")

    def query(self, text: Union[str, bytes]) -> Query:
        """A query, read and checked against the schema once. It keeps the schema.

        :class:`QueryRefused` is raised where the text means none.

        >>> Schema("type Query { a: Int }").query("{ b }")
        Traceback (most recent call last):
        sunwaket.QueryRefused: type `Query` does not have a field `b`
        """
        if self._fields is None:
            self._fields = SchemaFields(self.share()._read)
        return self._read(text, self._fields)

    def _read(self, text: Union[str, bytes], fields: Optional[SchemaFields] = None) -> Query:
        """The query of a text, which knows the types of the schema's fields where these are given."""
        query, given, reply = Query._over(fields), text_bytes(text), library.Handle()
        with self._lock:
            status = library.query_new(byref(self._handle), given, len(given), byref(query._handle), byref(reply))
        if status == library.REFUSED:
            raise QueryRefused(take(reply))
        if status != library.ANSWERED:
            raise refuse(status, "the query is no UTF-8")
        return query

    def close(self) -> None:
        """Lets go of the schema. Queries over it keep it."""
        self._fields = None
        super().close()

    def _copy_into(self, other: Any) -> None:
        other._fields = self._fields


def answer(
    schema: Union[str, bytes],
    query: Union[str, bytes],
    data: Union[Data, Json, None] = None,
    *,
    operation_name: Optional[str] = None,
    variables: Optional[Json] = None,
    introspection: bool = False,
) -> bytes:
    """The JSON of the response to one request, all its texts at once. What is refused raises as the calls of the parts do.

    >>> answer("type Query { a: A } type A { x: Int }", "{ a { x } }", {"a": {"x": 7}})
    b'{"data":{"a":{"x":7}}}'
    """
    with Schema(schema) as checked, checked.query(query) as read:
        return read.execute(data, operation_name=operation_name, variables=variables, introspection=introspection)


def check(schema: Union[str, bytes], query: Union[str, bytes]) -> str:
    """What is wrong with the texts of a schema and of a query, for people; empty where nothing is.

    >>> print(check("type Query { a: Missing }", "{ a }"), end="")
    Error: cannot find type `Missing` in this document
    schema.graphql:1:17: here
    """
    first, second, reply = text_bytes(schema), text_bytes(query), library.Handle()
    status = library.check(first, len(first), second, len(second), byref(reply))
    if status not in (library.ANSWERED, library.REFUSED):
        raise refuse(status, "a text is no UTF-8")
    return take(reply).decode("utf-8")
