"""A schema with resolvers as an endpoint of GraphQL over HTTP."""

from __future__ import annotations

import asyncio
import contextvars
from concurrent.futures import Executor
from functools import partial
from typing import Any, AsyncIterator, Callable, Collection, Mapping, Optional, Union

from .._api import Schema
from .._resolvers import GivenResolvers, Resolvers, as_resolvers
from ._context import current
from ._exchange import Answer, Exchange, Outcome, Request, Rules, called
from ._job import Job
from ._limits import Limits, too_slow
from ._reading import ReadQueries
from ._streaming import Source, streamed
from ._texts import Documents, keep, text_of
from ._watching import Told
from .rules import Asked, Fault


class Endpoint:
    """Answers requests to a schema by resolvers, as :meth:`sunwaket.Query.resolve` does.

    ``context`` makes of a request what resolvers get by :func:`sunwaket.http.context`; what it raises is answered in place of a
    response, a :class:`Fault` by its status. ``mask`` gives the text that clients are told of an exception of a resolver.
    ``subscriptions`` has for each root field of a subscription a function that takes its arguments and gives an asynchronous
    iterator of events, each the object that the operation is executed with. ``documents`` is a store of persisted queries, ``watch``
    is called with what each operation took, and ``room`` is how many bytes the queries that were read may hold.

    Any thread may use it. It raises ``ValueError`` for a resolver of a field that the schema lacks.
    """

    def __init__(
        self,
        schema: Union[Schema, str],
        resolvers: GivenResolvers = None,
        *,
        root: Any = None,
        subscriptions: Optional[Mapping[str, Source]] = None,
        context: Optional[Callable[[Request], Any]] = None,
        limits: Limits = Limits(),
        introspection: bool = True,
        origins: Collection[str] = (),
        documents: Optional[Documents] = None,
        mask: Optional[Callable[[Exception], str]] = None,
        type_of: Optional[Callable[[Any], Optional[str]]] = None,
        watch: Optional[Callable[[Told], None]] = None,
        room: int = 64 << 20,
    ):
        self.schema = schema if isinstance(schema, Schema) else Schema(schema)
        self.resolvers = given_resolvers(resolvers, type_of, mask)
        self.root, self.sources, self.limits, self.introspection = root, dict(subscriptions or {}), limits, introspection
        self.documents, self.watch = documents, watch
        self.rules = Rules(limits.body, limits.batch, frozenset(origins), bool(self.sources))
        self.queries = ReadQueries(self.schema, room)
        self._context = context
        # So that a mistake in the resolvers is told now, and not to the first client.
        self.schema.query("{ __typename }").resolve(None, self.resolvers)

    def answer(self, request: Request) -> Answer:
        """The answer, on the thread that calls."""
        exchange = Exchange(request, self.rules)
        if not exchange.asked:
            return exchange.answer([])
        try:
            made = self._context(request) if self._context else None
        except Exception as error:
            return exchange.refused(error)
        token = current.set(made)
        try:
            return exchange.answer([self.outcome(asked, request.method) for asked in exchange.asked])
        finally:
            current.reset(token)

    async def answer_async(self, request: Request, threads: Optional[Executor] = None) -> Answer:
        """The answer under :mod:`asyncio`, where resolvers may give what is to be awaited; with ``threads``, by resolvers that do not
        await, on one of these threads."""
        return await self.answer_exchange(Exchange(request, self.rules), threads)

    async def answer_exchange(self, exchange: Exchange, threads: Optional[Executor] = None) -> Answer:
        """The same for a request that is read."""
        request = exchange.request
        if not exchange.asked:
            return exchange.answer([])
        try:
            made = await self.context_of(request)
        except Exception as error:
            return exchange.refused(error)
        token = current.set(made)
        try:
            outcomes = [await self.outcome_async(asked, request.method, threads) for asked in exchange.asked]
        finally:
            current.reset(token)
        return exchange.answer(outcomes)

    async def context_of(self, request: Request) -> Any:
        """What the ``context`` function makes of a request, awaited if it is to be."""
        made = self._context(request) if self._context else None
        return await made if hasattr(type(made), "__await__") else made

    def outcome(self, asked: Union[Asked, Fault], method: str) -> Outcome:
        """What comes of one operation."""
        return self._outcome_of(Job(self, method), asked)

    def _outcome_of(self, job: Job, asked: Union[Asked, Fault]) -> Outcome:
        def execute(it: Asked) -> bytes:
            job.prepare(it, text_of(self.documents, it))
            keep(self.documents, it, job.text)
            return job.rounds(self.root, is_shared=True).run()

        return job.done(called(execute, asked))

    async def outcome_async(self, asked: Union[Asked, Fault], method: str, threads: Optional[Executor] = None) -> Outcome:
        """The same under :mod:`asyncio`."""
        if isinstance(asked, Fault):
            return asked
        if threads is not None:
            return await self._outcome_in(threads, asked, method)
        job = Job(self, method)
        try:
            await self.prepare(job, asked)
            return job.done(await self.run(job, self.root))
        except Exception as error:
            return job.done(error)

    async def _outcome_in(self, threads: Executor, asked: Asked, method: str) -> Outcome:
        """What comes of one operation on a thread. One that takes too long is left alone there."""
        job = Job(self, method)
        call = partial(contextvars.copy_context().run, self._outcome_of, job, asked)
        work = asyncio.get_running_loop().run_in_executor(threads, call)
        try:
            return await asyncio.wait_for(work, self.limits.seconds)
        except asyncio.TimeoutError:
            return job.done(too_slow(self.limits))

    async def prepare(self, job: Job, asked: Asked) -> None:
        """Finds the text of what is asked, reads it and looks at its limits. Raises as :meth:`Job.prepare` does."""
        if self.documents is None or not self.documents.is_slow:
            job.prepare(asked, text_of(self.documents, asked))
            keep(self.documents, asked, job.text)
            return
        loop = asyncio.get_running_loop()
        job.prepare(asked, await loop.run_in_executor(None, text_of, self.documents, asked))
        await loop.run_in_executor(None, keep, self.documents, asked, job.text)

    async def run(self, job: Job, root: Any) -> bytes:
        """The response, unless it takes too long."""
        work, seconds = job.rounds(root).run_async(), self.limits.seconds
        if seconds is None:
            return await work
        # A timer of its own: before Python 3.12 `wait_for` may lose that a client left.
        timer = Timer(seconds)
        try:
            return await work
        except asyncio.CancelledError:
            if timer.is_over:
                raise too_slow(self.limits) from None
            raise
        finally:
            timer.cancel()

    async def stream(self, request: Request, asked: Asked) -> Union[Answer, AsyncIterator[bytes]]:
        """A stream of events by GraphQL over SSE, or the answer in its place where the request is not let in."""
        job = Job(self, request.method, is_stream=True)
        try:
            current.set(await self.context_of(request))
            await self.prepare(job, asked)
        except Exception as error:
            outcome = job.done(error)
            if not (isinstance(outcome, Fault) and outcome.status is None) and not hasattr(outcome, "json"):
                return Exchange(request, self.rules).refused(error)
            return streamed(self, job, outcome)
        return streamed(self, job)


class Timer:
    """Cancels the task that makes it once the time is over."""

    def __init__(self, seconds: float):
        self.is_over, self._task = False, asyncio.current_task()
        self._timer = asyncio.get_running_loop().call_later(seconds, self._end)

    def _end(self) -> None:
        self.is_over = True
        if self._task is not None:
            self._task.cancel()

    def cancel(self) -> None:
        """Ends the timer."""
        self._timer.cancel()


def given_resolvers(given: GivenResolvers, type_of: Any, mask: Any) -> Resolvers:
    """Resolvers of the functions that are given, with the functions beside them."""
    if isinstance(given, Resolvers) and (type_of or mask):
        raise ValueError("`type_of` and `mask` belong to the resolvers that are made already")
    if isinstance(given, Resolvers) or not (type_of or mask):
        return as_resolvers(given)
    return Resolvers(given, type_of=type_of, **({"error_message": mask} if mask else {}))
