"""Streams of events: GraphQL over SSE, distinct connections mode, and the execution of a subscription for each event of its source
(GraphQL October 2021, section 6.2.3)."""

from __future__ import annotations

import json
from typing import Any, AsyncIterator, Callable, Dict, Optional

from .rules import EVENTS, GRAPHQL, Fault
from ._exchange import Outcome, told_of
from ._job import Job

#: What gives the events of a root field for the values of its arguments.
Source = Callable[[Dict[str, Any]], AsyncIterator[Any]]

COMPLETE = b"event: complete\ndata:\n\n"
ALIVE = b":\n\n"
HEADERS = {"Content-Type": f"{EVENTS}; charset=utf-8", "Cache-Control": "no-cache", "X-Accel-Buffering": "no"}


def next_of(outcome: Outcome) -> bytes:
    """The event that tells an outcome: JSON has no line break of its own."""
    return b"event: next\ndata: " + told_of(outcome, GRAPHQL)[1] + b"\n\n"


async def streamed(endpoint: Any, job: Job, refused: Optional[Outcome] = None) -> AsyncIterator[bytes]:
    """The events of an operation, or of its refusal."""
    if refused is not None:
        yield next_of(refused)
    elif job.operation.kind != "subscription":
        yield next_of(await executed(endpoint, job, endpoint.root))
    else:
        events = subscribed(endpoint, job)
        try:
            async for event in events:
                yield event
        finally:
            await events.aclose()
    yield COMPLETE


async def executed(endpoint: Any, job: Job, root: Any) -> Outcome:
    """What comes of one execution."""
    try:
        return job.done(await endpoint.run(job, root))
    except Exception as error:
        return job.done(error)


async def subscribed(endpoint: Any, job: Job) -> AsyncIterator[bytes]:
    """The events of a subscription: one execution for each event of its source, which is let go whatever ends the stream."""
    source = None
    try:
        source = source_of(endpoint, job)
        async for event in source:
            job.again()
            yield next_of(await executed(endpoint, job, event))
    except Exception as error:
        yield next_of(job.done(failed(endpoint, error)))
    finally:
        close = getattr(source, "aclose", None)
        if close is not None:
            await close()


def failed(endpoint: Any, error: Exception) -> Exception:
    """What a client is told where a source fails."""
    if isinstance(error, Fault) or hasattr(error, "json"):
        return error
    return Fault(None, f"resolver error: {endpoint.resolvers._message(error)}")


def source_of(endpoint: Any, job: Job) -> AsyncIterator[Any]:
    """The source of the operation's root field (section 6.2.3.1), by the values of its arguments."""
    asks = json.loads(job.first_asks())
    if not asks:
        raise Fault(None, "the subscription has no field that has events")
    field = asks[0]["field"]
    if field not in endpoint.sources:
        raise Fault(None, f"there are no events of the field `{field}`")
    return endpoint.sources[field](asks[0]["arguments"])
