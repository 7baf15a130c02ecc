"""GraphQL over HTTP, whatever carries it: a request's method, headers and body in; a status, headers and a body out.

:class:`Endpoint` answers requests to a schema by resolvers, within limits; :mod:`sunwaket.asgi` and :mod:`sunwaket.wsgi` put it into
servers. :func:`answer` is the core alone, over a function that executes.

>>> schema = Schema("type Query { hello(name: String!): String }")
>>> endpoint = Endpoint(schema, {"Query": {"hello": lambda root, arguments: "Hello " + arguments["name"]}})
>>> request = Request("POST", {"content-type": "application/json"}, b'{"query":"{ hello(name: \\\\"Ada\\\\") }"}')
>>> endpoint.answer(request).body
b'{"data":{"hello":"Hello Ada"}}'
"""

from ._context import context
from ._endpoint import Endpoint
from ._exchange import Answer, Exchange, Request, Rules, answer
from ._limits import Limits
from ._watching import Told
from .documents import ListedDocuments, MemoryDocuments, RedisDocuments
from .rules import EVENTS, GRAPHQL, JSON, Fault

__all__ = [
    "EVENTS",
    "GRAPHQL",
    "JSON",
    "Answer",
    "Endpoint",
    "Exchange",
    "Fault",
    "Limits",
    "ListedDocuments",
    "MemoryDocuments",
    "RedisDocuments",
    "Request",
    "Rules",
    "Told",
    "answer",
    "context",
]
