"""The same schema and database under graphql-core 3.2 with data loaders: `uvicorn --factory shop.beside:core`. `shop.beside:ours` is the shop
alone, without limits and metrics. Both keep the queries that they have read, and tell at `/statements` how many statements there were."""

import asyncio
import json
import os

from sunwaket.asgi import GraphQL
from sunwaket.http._context import current

from .app import SCHEMA, Listeners, say
from .database import Database
from .resolvers import Resolvers, Session, session_of


class Loader:
    """A data loader: what is asked for within one turn of the loop is looked up together."""

    def __init__(self, resolver):
        self._look, self._waiting, self._known = resolver.function, [], {}

    def load(self, source, arguments):
        key = (source["id"], tuple(arguments.items()))
        if key not in self._known:
            if not self._waiting:
                asyncio.get_running_loop().call_soon(self._send)
            self._known[key] = asyncio.get_running_loop().create_future()
            self._waiting.append((source, arguments, self._known[key]))
        return self._known[key]

    def _send(self):
        waiting, self._waiting = self._waiting, []
        for (_, _, future), value in zip(waiting, self._look([(source, arguments) for source, arguments, _ in waiting])):
            future.set_result(value)


def core():
    """The application over graphql-core."""
    import graphql

    database, schema, known = Database(os.environ["SHOP_DATABASE"]), graphql.build_schema(SCHEMA), {}
    for name, fields in Resolvers(Listeners()).fields().items():
        for field, resolver in fields.items():
            schema.type_map[name].fields[field].resolve = as_core((name, field), resolver)

    def read(text):
        if text not in known:
            document = graphql.parse(text)
            known[text] = document, graphql.validate(schema, document)
        return known[text]

    async def executed(given):
        current.set(Session(database, None))
        document, faults = read(given["query"])
        if faults:
            return {"errors": [fault.formatted for fault in faults]}
        made = graphql.execute(schema, document, variable_values=given.get("variables"), context_value={})
        result = made if isinstance(made, graphql.ExecutionResult) else await made
        return result.formatted

    async def app(scope, receive, send):
        if scope["type"] != "http":
            return
        if scope["path"] == "/statements":
            await say(send, "text/plain", str(database.statements).encode())
            return
        parts, more = [], True
        while more:
            message = await receive()
            parts.append(message.get("body", b""))
            more = message.get("more_body")
        await say(send, "application/json", json.dumps(await executed(json.loads(b"".join(parts))), separators=(",", ":")).encode())

    return app


def as_core(key, resolver):
    """A resolver as graphql-core takes it: one for many becomes a loader of the request."""
    function = getattr(resolver, "function", None)
    if function is None:
        return lambda source, info, **arguments: resolver(source, arguments)

    def resolve(source, info, **arguments):
        if key not in info.context:
            info.context[key] = Loader(resolver)
        return info.context[key].load(source, arguments)

    return resolve


def ours():
    """The application over this package, on the loop as the other one."""
    database = Database(os.environ["SHOP_DATABASE"])
    graphql = GraphQL(SCHEMA, Resolvers(Listeners()).fields(), context=session_of(database))

    async def app(scope, receive, send):
        if scope.get("path") == "/statements":
            await say(send, "text/plain", str(database.statements).encode())
        else:
            await graphql(scope, receive, send)

    return app
