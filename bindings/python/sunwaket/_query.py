"""Queries, and what they are asked."""

from __future__ import annotations

import ctypes
from ctypes import addressof, byref
from typing import Any, NamedTuple, Optional, Tuple, Union

from . import _library as library
from ._base import Data, Json, Value, json_bytes, refuse, take
from ._errors import RequestRefused, TooCostly
from ._field_types import SchemaFields
from ._resolvers import GivenResolvers, as_resolvers
from ._rounds import Rounds
from ._told import Teller

#: The most that a limit can say.
MOST = 2**32 - 1


class Operation(NamedTuple):
    """An operation of a query, as the library is told it: its name, the JSON of its variables, and the flags."""

    name: bytes
    variables: bytes
    flags: int


def operation_of(name: Optional[str], variables: Optional[Json], introspection: bool) -> Operation:
    return Operation(
        b"" if name is None else name.encode("utf-8"),
        b"" if variables is None else json_bytes(variables),
        (library.NAMED if name is not None else 0) | (library.INTROSPECTION if introspection else 0),
    )


class Query(Value):
    """A query that :meth:`Schema.query` read and checked."""

    __slots__ = ("_fields", "_reply", "_reply_at", "_room", "_room_at")

    # Replies up to so many bytes are copied by one call, into room that the query keeps.
    _ROOM = 4096

    def __init__(self) -> None:
        raise TypeError("a query is made by Schema.query")

    @classmethod
    def _over(cls, fields: Optional[SchemaFields]) -> Query:
        """A query that holds nothing yet."""
        query = cls.__new__(cls)
        Value.__init__(query)
        query._prepare(fields)
        return query

    def _prepare(self, fields: Optional[SchemaFields]) -> None:
        self._fields = fields
        self._reply = library.Handle()
        self._room = ctypes.create_string_buffer(self._ROOM)
        self._reply_at, self._room_at = addressof(self._reply), addressof(self._room)

    def _copy_into(self, other: Any) -> None:
        other._prepare(self._fields)

    def execute(
        self,
        data: Union[Data, Json, None] = None,
        *,
        operation_name: Optional[str] = None,
        variables: Optional[Json] = None,
        introspection: bool = False,
    ) -> bytes:
        """The JSON of the response to an operation, over data.

        The operation is the one of the name, or the only one. With ``introspection``, ``__schema`` and ``__type`` are answered.
        Errors of fields stand in the response. :class:`RequestRefused` is raised where there is none.

        >>> query = Schema("type Query { add(x: Int!): Int }").query("query ($x: Int!) { add(x: $x) }")
        >>> query.execute({"add": 3}, variables={"x": 2})
        b'{"data":{"add":3}}'
        >>> query.execute({"add": 3})
        Traceback (most recent call last):
        sunwaket.RequestRefused: missing value for non-null variable 'x'
        """
        root = data if isinstance(data, Data) else Data({} if data is None else data)
        name, given, flags = operation_of(operation_name, variables, introspection)
        with self._lock:
            with root._lock:
                status = library.execute(self._at, root._at, name, len(name), given, len(given), flags, self._reply_at)
            told = self._told() if status in (library.ANSWERED, library.REFUSED) else b""
        return self._response(status, told)

    def resolve(
        self,
        root: Any = None,
        resolvers: GivenResolvers = None,
        *,
        operation_name: Optional[str] = None,
        variables: Optional[Json] = None,
        introspection: bool = False,
    ) -> bytes:
        """The JSON of the response to an operation, by resolvers over any objects.

        ``resolvers`` has a function for a field of an object type, which is given the object and the arguments by their names. A field
        without one is the member of that name of a mapping, or the attribute of another object, called with the arguments where it can
        be. ``root`` is the object that the operation begins at. :class:`Resolvers` says what a resolver may give. All fields
        that can be resolved are resolved in one round, so that :func:`many` takes them together; the root fields of a mutation wait until
        those before them are whole (GraphQL October 2021, section 6.2.2).

        What a resolver raises stands in the response as an error of its field. :class:`RequestRefused` is raised where there is no
        response, ``ValueError`` for a resolver of a field that the schema lacks, and ``TypeError`` where a resolver gives what is to be
        awaited.

        >>> schema = Schema("type Query { book(title: String!): Book } type Book { title: String years: Int }")
        >>> query = schema.query('{ book(title: "Emma") { title years } }')
        >>> books = [{"title": "Emma", "year": 1815}]
        >>> resolvers = {
        ...     "Query": {"book": lambda root, arguments: next(it for it in books if it["title"] == arguments["title"])},
        ...     "Book": {"years": lambda book, arguments: 2015 - book["year"]},
        ... }
        >>> query.resolve(None, resolvers)
        b'{"data":{"book":{"title":"Emma","years":200}}}'
        """
        rounds = self._rounds(root, resolvers, operation_of(operation_name, variables, introspection))
        return rounds.run()

    async def resolve_async(
        self,
        root: Any = None,
        resolvers: GivenResolvers = None,
        *,
        operation_name: Optional[str] = None,
        variables: Optional[Json] = None,
        introspection: bool = False,
    ) -> bytes:
        """The same where resolvers may give what is to be awaited, itself or as an item of a list: all of a round is awaited at once, under
        :mod:`asyncio`.

        >>> import asyncio
        >>> async def later(root, arguments):
        ...     await asyncio.sleep(0)
        ...     return arguments["x"] + 1
        >>> query = Schema("type Query { next(x: Int!): Int }").query("{ a: next(x: 1) b: next(x: 2) }")
        >>> asyncio.run(query.resolve_async(None, {"Query": {"next": later}}))
        b'{"data":{"a":2,"b":3}}'
        """
        rounds = self._rounds(root, resolvers, operation_of(operation_name, variables, introspection))
        return await rounds.run_async()

    def _rounds(self, root: Any, resolvers: GivenResolvers, operation: Operation) -> Rounds:
        """A request in rounds that is not begun."""
        assert self._fields is not None
        types = self._fields.types()
        given = as_resolvers(resolvers)
        given._check(types)
        answers = Value()

        def step() -> Tuple[bool, bytes]:
            return self._step(answers, operation)

        serial = self._kind(operation) == library.MUTATION
        return Rounds(step, answers, types, Teller(root, given), serial)

    def _first_step(self, operation: Operation) -> Tuple[bool, bytes]:
        """The first step of a request, for a server: whether something is asked, and what."""
        return self._step(Value(), operation)

    def _step(self, answers: Value, operation: Operation) -> Tuple[bool, bytes]:
        """Whether something is asked by what was answered so far, and what: the JSON of the asks, or of the response."""
        name, given, flags = operation
        told_statuses = (library.ASKS, library.ANSWERED, library.REFUSED)
        with self._lock:
            status = library.step(self._at, answers._at, name, len(name), given, len(given), flags, self._reply_at)
            told = self._told() if status in told_statuses else b""
        return (True, told) if status == library.ASKS else (False, self._response(status, told))

    def _response(self, status: int, told: bytes) -> bytes:
        """The response of a status, where it is one."""
        if status == library.REFUSED:
            raise RequestRefused(told)
        if status != library.ANSWERED:
            raise refuse(status, "the operation's name is no UTF-8")
        return told

    def _told(self) -> bytes:
        """The bytes of the reply."""
        length = library.reply_copy(self._reply_at, self._room_at, self._ROOM)
        return self._room[:length] if length <= self._ROOM else take(self._reply)

    def kind(self, operation_name: Optional[str] = None) -> Optional[str]:
        """``"query"``, ``"mutation"`` or ``"subscription"``: the kind of the operation of the name, or of the only one; else None.

        >>> query = Schema("type Query { a: Int } type Mutation { b: Int }").query("query Q { a } mutation M { b }")
        >>> query.kind("M"), query.kind()
        ('mutation', None)
        """
        return library.KINDS.get(self._kind(operation_of(operation_name, None, False)))

    def _kind(self, operation: Operation) -> int:
        """The number of the kind of an operation; 0 where there is none."""
        name, kind = operation.name, ctypes.c_uint32()
        with self._lock:
            status = library.operation_kind(self._at, name, len(name), operation.flags & library.NAMED, byref(kind))
        if status not in (library.ANSWERED, library.REFUSED):
            raise refuse(status, "the operation's name is no UTF-8")
        return kind.value

    def cost(self, *, items: int, limit: int = MOST, operation_name: Optional[str] = None) -> int:
        """How many nodes the data of a response can have at most, where no list has more than ``items`` items: known before anything is
        executed.

        The data themselves are one node, and so is each value in them. The operation is the one of the name, or the only one.
        :class:`TooCostly` is raised where the cost is above ``limit``, and :class:`RequestRefused` where there is no such operation.
        ``items`` and ``limit`` are below 2**32.

        >>> query = Schema("type Query { books: [Book] } type Book { title: String }").query("{ books { title } }")
        >>> query.cost(items=10)
        22
        >>> query.cost(items=100, limit=150)
        Traceback (most recent call last):
        sunwaket.TooCostly: cost above limit
        """
        if not (0 <= items <= MOST and 0 <= limit <= MOST):
            raise ValueError("items and limit are from 0 to 2**32-1")
        name, _, flags = operation_of(operation_name, None, False)
        most, cost, reply = library.Limit(items, limit), ctypes.c_uint32(), library.Handle()
        with self._lock:
            status = library.operation_cost(self._at, name, len(name), flags, byref(most), byref(cost), byref(reply))
        if status == library.TOO_COSTLY:
            raise TooCostly(take(reply))
        if status == library.REFUSED:
            raise RequestRefused(take(reply))
        if status != library.ANSWERED:
            raise refuse(status, "the operation's name is no UTF-8")
        return cost.value

    def close(self) -> None:
        """Lets go of the query."""
        with self._lock:
            library.free(byref(self._handle))
            library.free(byref(self._reply))

    def __del__(self) -> None:
        super().__del__()
        reply = getattr(self, "_reply", None)
        if reply is not None:
            library.free(byref(reply))
