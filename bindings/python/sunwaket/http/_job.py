"""One operation, from its text to its response."""

from __future__ import annotations

from typing import Any, Optional

from .._query import operation_of
from .._rounds import Rounds
from ._exchange import Outcome, logger
from ._limits import Meter
from ._reading import Operation, ReadQuery
from ._watching import is_noted, note, told
from .rules import Asked, Fault


class Job:
    """An operation that an endpoint is asked for, and what it takes."""

    __slots__ = ("_asked", "_endpoint", "_is_stream", "_is_told", "_method", "_read", "meter", "operation")

    def __init__(self, endpoint: Any, method: str, is_stream: bool = False):
        self._endpoint, self._method, self._is_stream = endpoint, method, is_stream
        self._is_told = False
        self._asked: Optional[Asked] = None
        self._read: Optional[ReadQuery] = None
        self.operation: Optional[Operation] = None
        self.meter = Meter(endpoint.limits)

    @property
    def text(self) -> str:
        """The text of the query, once it is read."""
        assert self._read is not None
        return self._read.text

    def prepare(self, asked: Asked, text: str) -> None:
        """Reads the text of the query, or finds it. Raises where it is refused, or asks for more than the limits allow."""
        endpoint = self._endpoint
        self._asked, self._read = asked, endpoint.queries.get(text)
        self.operation = self._read.operation(asked.operation_name, endpoint.limits, endpoint.watch is not None or is_noted())
        kind, depth = self.operation.kind, self.operation.depth
        if self._method != "POST" and kind not in ("query", None) and not (self._is_stream and kind == "subscription"):
            raise Fault(405, "only queries are executed by GET", Allow="POST, OPTIONS")
        if kind == "subscription" and not self._is_stream:
            raise Fault(406, "a subscription is answered as text/event-stream")
        if endpoint.limits.depth is not None and depth > endpoint.limits.depth:
            raise Fault(None, f"the query is nested deeper than {endpoint.limits.depth}")

    def rounds(self, root: Any, is_shared: bool = False) -> Rounds:
        """The execution, over a handle of its own where it is shared with other threads."""
        assert self._asked is not None and self._read is not None
        endpoint, query = self._endpoint, self._read.query
        made = (query.share() if is_shared else query)._rounds(root, endpoint.resolvers, self.told_to_library())
        made.measured_by(self.meter)
        return made

    def told_to_library(self) -> Any:
        """The operation as the library is told it."""
        assert self._asked is not None
        return operation_of(self._asked.operation_name, self._asked.variables or None, self._endpoint.introspection)

    def first_asks(self) -> bytes:
        """What is asked of the root before anything is answered. Raises ``RequestRefused``."""
        assert self._read is not None
        asks, said = self._read.query._first_step(self.told_to_library())
        return said if asks else b"[]"

    def again(self) -> None:
        """The operation is executed once more, for the next event."""
        self.meter, self._is_told = Meter(self._endpoint.limits), False

    def done(self, outcome: Outcome) -> Outcome:
        """Tells whoever watches what came of it, once, and gives it."""
        watch = self._endpoint.watch
        if self._is_told:
            return outcome
        self._is_told = True
        it = told(self.operation, self.meter, outcome)
        note(it)
        if watch is not None:
            try:
                watch(it)
            except Exception:
                logger.exception("the hook that watches operations ended by an exception")
        return outcome
