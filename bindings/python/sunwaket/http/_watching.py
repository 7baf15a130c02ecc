"""What one operation took, told to whoever watches."""

from __future__ import annotations

import json
import logging
import time
from typing import NamedTuple, Optional

from .._errors import Refused
from ._exchange import Outcome, told_of
from ._limits import Meter
from ._reading import Operation
from .rules import GRAPHQL

logger = logging.getLogger("sunwaket.http.operations")


class Told(NamedTuple):
    """What a hook is told of an operation, whatever came of it."""

    #: The operation's name, where it has one that the document has.
    name: Optional[str]
    #: ``query``, ``mutation`` or ``subscription`` (each event of which is told); None where no such operation was found.
    kind: Optional[str]
    #: How many nodes the data could have, where there is a limit of them.
    cost: Optional[int]
    #: How often the resolvers were called in turn, and for how many fields of objects.
    rounds: int
    asks: int
    #: How long it took, how much of that was the engine's, and the rest, which is that of resolvers.
    seconds: float
    engine_seconds: float
    resolver_seconds: float
    #: How many errors the response has.
    errors: int
    #: The status that the newer media type has for it.
    status: int


def errors_of(outcome: Outcome) -> int:
    """How many errors a response has: they come first in it."""
    if isinstance(outcome, bytes):
        return len(json.loads(outcome)["errors"]) if outcome.startswith(b'{"errors"') else 0
    return len(outcome.errors) if isinstance(outcome, Refused) else 1


def told(operation: Optional[Operation], meter: Meter, outcome: Outcome) -> Told:
    """What is told of an operation."""
    seconds = time.perf_counter() - meter.start
    status = 200 if isinstance(outcome, bytes) else told_of(outcome, GRAPHQL)[0]
    name, kind, cost = (operation.name, operation.kind, operation.cost) if operation else (None, None, None)
    parts = meter.rounds, meter.asks, seconds, meter.engine, max(0.0, seconds - meter.engine)
    return Told(name, kind, cost, *parts, errors_of(outcome), status)


def is_noted() -> bool:
    """Whether there is a log of operations."""
    return logger.isEnabledFor(logging.INFO)


def note(it: Told) -> None:
    """One line in the log ``sunwaket.http.operations``."""
    if is_noted():
        words = it.kind or "-", it.name or "-", it.status, it.errors, it.rounds, it.asks, it.seconds * 1000, it.engine_seconds * 1000
        logger.info("%s %s status=%d errors=%d rounds=%d asks=%d ms=%.1f engine_ms=%.1f", *words)
