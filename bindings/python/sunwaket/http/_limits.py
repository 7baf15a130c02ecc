"""Limits of what an operation may take."""

from __future__ import annotations

import time
from typing import Callable, NamedTuple, Optional, Tuple

from .rules import Fault


class Limits(NamedTuple):
    """The most that a request may have or take; ``None`` is no limit. docs/SERVERS.md says what to set for strangers.

    A query above ``depth``, ``rounds`` or ``asks``, or whose data may have more than ``nodes`` values where lists have up to ``items``
    items, is refused as a fault of validation is. Depth and cost are known before anything is executed. What takes longer than
    ``seconds`` is answered by 503, a longer body by 413.
    """

    #: The most bytes of a body.
    body: int = 1 << 20
    #: How deep fields may be nested.
    depth: Optional[int] = None
    #: How many items a list is taken to have, and how many nodes the data may have then.
    items: int = 100
    nodes: Optional[int] = None
    #: How many rounds of resolvers there may be, and how many fields of objects may be asked in all of them.
    rounds: Optional[int] = None
    asks: Optional[int] = None
    #: How long an operation may take. A resolver that does not await is looked at only when it ends.
    seconds: Optional[float] = 30
    #: How many requests a list may have; none where it is 0.
    batch: int = 0


class Meter:
    """What an operation takes. It ends the operation where that is too much."""

    __slots__ = ("asks", "engine", "limits", "rounds", "start", "until")

    def __init__(self, limits: Limits):
        self.limits, self.start = limits, time.perf_counter()
        self.until = None if limits.seconds is None else self.start + limits.seconds
        self.rounds, self.asks, self.engine = 0, 0, 0.0

    def round(self, asks: int) -> None:
        """Notes a round. Raises a Fault where it is one too many."""
        self.rounds += 1
        self.asks += asks
        limits = self.limits
        if limits.rounds is not None and self.rounds > limits.rounds:
            raise Fault(None, f"the query takes more than {limits.rounds} rounds")
        if limits.asks is not None and self.asks > limits.asks:
            raise Fault(None, f"the query asks more than {limits.asks} fields of objects")
        if self.until is not None and time.perf_counter() > self.until:
            raise too_slow(limits)

    def timed(self, step: Callable[[], Tuple[bool, bytes]]) -> Callable[[], Tuple[bool, bytes]]:
        """The same step, whose time is noted."""

        def timed_step() -> Tuple[bool, bytes]:
            start = time.perf_counter()
            try:
                return step()
            finally:
                self.engine += time.perf_counter() - start

        return timed_step


def too_slow(limits: Limits) -> Fault:
    """The fault of an operation that takes too long."""
    return Fault(503, f"the operation took more than {limits.seconds} seconds")
