"""GraphQL requests answered by a proved engine: schemas, queries and plain data in, the bytes of responses out.

>>> schema = Schema("type Query { book(title: String!): Book } type Book { title: String year: Int }")
>>> query = schema.query("query ($title: String!) { book(title: $title) { title year } }")
>>> data = Data({"book": {"title": "Emma", "year": 1815}})
>>> query.execute(data, variables={"title": "Emma"})
b'{"data":{"book":{"title":"Emma","year":1815}}}'

A schema and a query are read and checked once, and then serve any number of requests. A field of the data is the member of its name,
whatever its arguments; an object with a text member ``__error`` is a failure of its field, and one with ``__typename`` is of that
type. Numbers are whole, from -2**63 to 2**64-1.

What is refused raises :class:`Refused`, which carries the JSON that a client is to be told. ``MemoryError`` is raised when memory runs
out. Each value has a lock, so any thread may use it, and one thread may make it, another use it and a third close it. To work at the
same time each thread takes a value of its own by ``share()``, which copies nothing.
"""

from ._api import VERSION, Schema, answer, check
from ._base import Data
from ._errors import QueryRefused, Refused, RequestRefused, SchemaRefused, TooCostly
from ._query import Query
from ._resolvers import Resolvers, many

__all__ = [
    "VERSION",
    "Data",
    "Query",
    "QueryRefused",
    "Refused",
    "RequestRefused",
    "Resolvers",
    "Schema",
    "SchemaRefused",
    "TooCostly",
    "answer",
    "check",
    "many",
]
