"""GraphQL over HTTP as an ASGI application, for uvicorn, Starlette and whatever else speaks ASGI 3.

    app = sunwaket.asgi.GraphQL(schema, resolvers)      # uvicorn module:app
"""

from __future__ import annotations

import asyncio
from concurrent.futures import ThreadPoolExecutor
from typing import Any, AsyncIterator, Awaitable, Callable, Dict, Optional, Union

from ._api import Schema
from ._resolvers import GivenResolvers
from .http._endpoint import Endpoint
from .http._exchange import Answer, Exchange, Request, too_long
from .http._streaming import ALIVE, HEADERS
from .http.rules import Fault

Message = Dict[str, Any]
Receive = Callable[[], Awaitable[Message]]
Send = Callable[[Message], Awaitable[None]]


class _Gone(Exception):
    """The client left before its request was whole."""


class GraphQL:
    """The application: ``options`` are those of :class:`sunwaket.http.Endpoint`.

    With ``path``, other paths are answered by 404. Resolvers run on the loop, and may be coroutines; those that wait without awaiting,
    as drivers of databases do, belong on threads: with ``threads``, each request runs on one of so many, and its resolvers do not
    await. ``keep_alive`` is after how many seconds a silent stream says that it is there.
    """

    def __init__(
        self,
        schema: Union[Schema, str],
        resolvers: GivenResolvers = None,
        *,
        path: Optional[str] = None,
        threads: int = 0,
        keep_alive: float = 15.0,
        **options: Any,
    ):
        self.endpoint = Endpoint(schema, resolvers, **options)
        self._path, self._keep_alive = path, keep_alive
        self._threads = ThreadPoolExecutor(threads, "sunwaket") if threads else None

    async def __call__(self, scope: Message, receive: Receive, send: Send) -> None:
        """One connection's request, or the span of the server's life."""
        if scope["type"] == "lifespan":
            await self._live(receive, send)
        elif scope["type"] == "http":
            await self._respond(scope, receive, send)
        else:
            raise RuntimeError(f"there is no {scope['type']} here, but GraphQL over HTTP")

    async def _live(self, receive: Receive, send: Send) -> None:
        while True:
            message = await receive()
            if message["type"] == "lifespan.shutdown" and self._threads:
                self._threads.shutdown(wait=False)
            await send({"type": f"{message['type']}.complete"})
            if message["type"] == "lifespan.shutdown":
                return

    async def _respond(self, scope: Message, receive: Receive, send: Send) -> None:
        request = request_of(scope)
        try:
            if self._path is not None and scope["path"] != self._path:
                raise Fault(404, f"there is nothing here but {self._path}")
            request = request._replace(body=await body_of(request, receive, self.endpoint.limits.body))
        except Fault as fault:
            await send_answer(send, Exchange(request, self.endpoint.rules).refused(fault))
            return
        except _Gone:
            return
        exchange = Exchange(request, self.endpoint.rules)
        if not exchange.is_stream:
            await send_answer(send, await self.endpoint.answer_exchange(exchange, self._threads))
            return
        made = await self.endpoint.stream(request, exchange.asked[0])
        if isinstance(made, Answer):
            await send_answer(send, made)
        else:
            await self._send_stream(made, exchange, receive, send)

    async def _send_stream(self, events: AsyncIterator[bytes], exchange: Exchange, receive: Receive, send: Send) -> None:
        """Sends events until there are no more or the client leaves, which frees their source."""
        headers = {**HEADERS, **exchange.headers()}
        await send({"type": "http.response.start", "status": 200, "headers": encoded(headers)})
        tasks = [asyncio.ensure_future(it) for it in (pump(events, send), left(receive), self._say_alive(send))]
        try:
            await asyncio.wait(tasks[:2], return_when=asyncio.FIRST_COMPLETED)
        finally:
            while [task.cancel() for task in tasks if not task.done()]:
                await asyncio.wait(tasks, timeout=1)
        if not tasks[0].cancelled() and tasks[0].exception() is None:
            await send({"type": "http.response.body", "body": b""})

    async def _say_alive(self, send: Send) -> None:
        while True:
            await asyncio.sleep(self._keep_alive)
            await send({"type": "http.response.body", "body": ALIVE, "more_body": True})


async def pump(events: Any, send: Send) -> None:
    """Sends each event as it comes."""
    try:
        async for event in events:
            await send({"type": "http.response.body", "body": event, "more_body": True})
    finally:
        await events.aclose()


async def left(receive: Receive) -> None:
    """Waits until the client leaves."""
    while (await receive())["type"] != "http.disconnect":
        pass


def request_of(scope: Message) -> Request:
    """The request without its body."""
    headers: Dict[str, str] = {}
    for name, value in scope["headers"]:
        key, told = name.decode("latin-1").lower(), value.decode("latin-1")
        headers[key] = f"{headers[key]}, {told}" if key in headers else told
    return Request(scope["method"], headers, b"", scope["query_string"].decode("latin-1"))


async def body_of(request: Request, receive: Receive, limit: int) -> bytes:
    """The body. Raises a Fault (413) as soon as it is too long."""
    told = request.headers.get("content-length", "")
    if told.isdigit() and int(told) > limit:
        raise too_long(limit)
    parts, length = [], 0
    while True:
        message = await receive()
        if message["type"] == "http.disconnect":
            raise _Gone
        parts.append(message.get("body", b""))
        length += len(parts[-1])
        if length > limit:
            raise too_long(limit)
        if not message.get("more_body"):
            return b"".join(parts)


def encoded(headers: Dict[str, str]) -> Any:
    """Headers as ASGI has them."""
    return [(name.lower().encode("latin-1"), value.encode("latin-1")) for name, value in headers.items()]


async def send_answer(send: Send, answer: Answer) -> None:
    """Sends an answer."""
    await send({"type": "http.response.start", "status": answer.status, "headers": encoded(answer.headers)})
    await send({"type": "http.response.body", "body": answer.body})
