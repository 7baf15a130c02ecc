"""The shop as an ASGI application: `/graphql`, its page at `/`, and `/metrics`. The variable SHOP_DATABASE tells the database."""

import asyncio
import hashlib
import json
import logging
import os
import pathlib

import sunwaket.mock
from sunwaket.asgi import GraphQL
from sunwaket.http import Limits, MemoryDocuments

from .database import Database
from .metrics import Metrics
from .resolvers import Resolvers, session_of

SCHEMA = pathlib.Path(__file__).with_name("schema.graphql").read_text(encoding="utf-8")
PAGE = pathlib.Path(sunwaket.mock.__file__).with_name("page.html")
LIMITS = Limits(depth=10, items=50, nodes=50_000, rounds=14, asks=50_000, seconds=10)
WAITING = 100


class Listeners:
    """Those who wait for reviews, each with a queue. Reviews may be told from any thread."""

    def __init__(self):
        self._queues = {}

    def tell(self, review):
        """Tells all of them; one that is too slow loses what it has no room for."""
        for queue, loop in list(self._queues.items()):
            loop.call_soon_threadsafe(lambda queue=queue: queue.full() or queue.put_nowait(review))

    async def reviewed(self, arguments):
        """The events of the subscription."""
        queue = asyncio.Queue(WAITING)
        self._queues[queue] = asyncio.get_running_loop()
        try:
            while True:
                review = await queue.get()
                if arguments.get("book") in (None, f"Book:{review['book_key']}"):
                    yield {"reviewed": review}
        finally:
            del self._queues[queue]


def mask(error):
    """What clients are told of an exception: what they did wrong, and nothing of the database."""
    if isinstance(error, (ValueError, PermissionError)):
        return str(error)
    logging.error("a resolver failed", exc_info=error)
    return "internal error"


class Shop:
    """The application."""

    def __init__(self, database, threads=4):
        self.database, self.metrics, listeners = database, Metrics(), Listeners()
        if not database.is_filled():
            database.fill()
        self.graphql = GraphQL(
            SCHEMA,
            Resolvers(listeners).fields(),
            threads=threads,
            context=session_of(database),
            subscriptions={"reviewed": listeners.reviewed},
            limits=LIMITS,
            documents=MemoryDocuments(),
            mask=mask,
            watch=self.metrics.note,
        )

    async def __call__(self, scope, receive, send):
        path = scope.get("path")
        if scope["type"] != "http" or path == "/graphql":
            await self.graphql(scope, receive, send)
        elif path == "/metrics":
            await say(send, "text/plain; version=0.0.4", self.metrics.text().encode())
        elif path == "/schema":
            await say(send, "text/plain", SCHEMA.encode())
        elif path == "/status":
            told = {"faults": [], "schema": hashlib.sha256(SCHEMA.encode()).hexdigest()}
            await say(send, "application/json", json.dumps(told).encode())
        elif path == "/" and PAGE.is_file():
            await say(send, "text/html", PAGE.read_bytes().replace(b'<html lang="en">', b'<html lang="en" data-server>', 1))
        else:
            await say(send, "text/plain", b"There is /graphql, /metrics, and a page at / where bindings/build made it.", 404)


async def say(send, kind, body, status=200):
    """Answers with a text."""
    headers = [(b"content-type", f"{kind}; charset=utf-8".encode()), (b"content-length", str(len(body)).encode())]
    await send({"type": "http.response.start", "status": status, "headers": headers})
    await send({"type": "http.response.body", "body": body})


def made():
    """The application for a server that calls a factory: `uvicorn --factory shop.app:made`."""
    return Shop(Database(os.environ.get("SHOP_DATABASE", "shop.sqlite3")))
