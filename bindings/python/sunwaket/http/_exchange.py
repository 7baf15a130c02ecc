"""One request, and the answer to it: what stands around an execution."""

from __future__ import annotations

import json
import logging
from typing import Any, Callable, Collection, Dict, List, Mapping, NamedTuple, Optional, Tuple, Union

from .._errors import Refused
from .rules import EVENTS, JSON, Asked, Fault, accepted, from_address, from_body, parameters, refusal_status

METHODS = "GET, HEAD, POST, OPTIONS"
logger = logging.getLogger("sunwaket.http")


class Request(NamedTuple):
    """A request: its method, its headers by their names in lower case, its body, and what stands behind the ``?`` of its address."""

    method: str
    headers: Mapping[str, str]
    body: bytes = b""
    query: str = ""


class Answer(NamedTuple):
    """An answer: its status, its headers and its body, which is empty for HEAD."""

    status: int
    headers: Dict[str, str]
    body: bytes


class Rules(NamedTuple):
    """What an endpoint lets in, whatever it executes."""

    #: The most bytes of a body.
    body: int = 1 << 20
    #: The most requests of a list; none where it is 0.
    batch: int = 0
    #: The origins whose pages may ask; ``*`` is any.
    origins: Collection[str] = ()
    #: Whether there are streams of events.
    has_streams: bool = False


#: What came of an execution: the bytes of a response, or what was raised.
Outcome = Union[bytes, Exception]


def content_type(header: str) -> Tuple[str, str]:
    """The media type of a request and its charset."""
    kind, *parts = header.split(";")
    told = dict(part.strip().lower().partition("=")[::2] for part in parts)
    return kind.strip().lower(), told.get("charset", "utf-8").strip('"')


def told_of(outcome: Outcome, kind: str) -> Tuple[int, bytes, Dict[str, str]]:
    """The status, the body and the headers that an outcome is answered with."""
    if isinstance(outcome, bytes):
        return 200, outcome, {}
    if isinstance(outcome, Refused):
        return refusal_status(kind), outcome.json, {}
    if not isinstance(outcome, Fault):
        outcome = fault_of(outcome)
    status = refusal_status(kind) if outcome.status is None else outcome.status
    return status, json.dumps({"errors": outcome.errors}, ensure_ascii=True).encode(), outcome.headers


def fault_of(error: Exception) -> Fault:
    """The fault that any other exception is."""
    if isinstance(error, MemoryError):
        return Fault(503, "out of memory", Retry_After="1")
    if isinstance(error, RecursionError):
        return Fault(None, "the query is nested too deep")
    if isinstance(error, UnicodeEncodeError):
        return Fault(400, "the request is no Unicode")
    logger.error("a request ended by an exception", exc_info=error)
    return Fault(500, "internal error")


class Exchange:
    """A request that is read: what it asks, one after the other, and then its answer."""

    def __init__(self, request: Request, rules: Rules = Rules()):
        self.request, self.rules = request, rules
        self.kind = JSON
        #: What is to be executed: each may be a fault of its own.
        self.asked: List[Union[Asked, Fault]] = []
        self._is_batch = False
        self._answer: Optional[Answer] = None
        try:
            self._read()
        except Fault as fault:
            self._answer = self.refused(fault)

    @property
    def is_stream(self) -> bool:
        """Whether the answer is a stream of events."""
        return self.kind == EVENTS and self._answer is None

    def _read(self) -> None:
        request = self.request
        if request.method == "OPTIONS":
            self._answer = self._with(204, None, b"", self._preflight())
            return
        if request.method not in ("GET", "HEAD", "POST"):
            raise Fault(405, "the method is GET or POST", Allow=METHODS)
        if len(request.body) > self.rules.body:
            raise too_long(self.rules.body)
        self.kind = accepted(request.headers.get("accept"), self.rules.has_streams)
        given = self._given()
        self._is_batch = isinstance(given, list) and self.rules.batch > 0
        if not self._is_batch:
            self.asked = [parameters(given)]
        elif not 0 < len(given) <= self.rules.batch or self.kind == EVENTS:
            raise Fault(400, f"a list has 1 to {self.rules.batch} requests, and no stream")
        else:
            self.asked = [one_of(it) for it in given]

    def _given(self) -> Any:
        if self.request.method != "POST":
            return from_address(self.request.query)
        return from_body(self.request.body, *content_type(self.request.headers.get("content-type", "")))

    def _preflight(self) -> Dict[str, str]:
        told = {"Allow": METHODS}
        if self.rules.origins:
            told["Access-Control-Allow-Methods"] = METHODS
            told["Access-Control-Allow-Headers"] = self.request.headers.get("access-control-request-headers") or "Content-Type"
            told["Access-Control-Max-Age"] = "600"
        return told

    def answer(self, outcomes: List[Outcome]) -> Answer:
        """The answer, once all that is asked is executed."""
        if self._answer is not None:
            return self._answer
        if self._is_batch:
            return self._with(200, self.kind, b"[" + b",".join([told_of(it, self.kind)[1] for it in outcomes]) + b"]")
        status, body, headers = told_of(outcomes[0], self.kind)
        return self._with(status, JSON if self.kind == EVENTS else self.kind, body, headers)

    def refused(self, fault: Exception) -> Answer:
        """The answer to a request that is wrong as a whole."""
        kind = JSON if self.kind == EVENTS else self.kind
        status, body, headers = told_of(fault, kind)
        return self._with(status, kind, body, headers)

    def headers(self) -> Dict[str, str]:
        """What pages of other origins are told."""
        origins, origin = self.rules.origins, self.request.headers.get("origin")
        if not origins:
            return {}
        if "*" in origins:
            return {"Access-Control-Allow-Origin": "*"}
        if len(origins) == 1:
            return {"Access-Control-Allow-Origin": next(iter(origins))}
        allowed = {"Access-Control-Allow-Origin": origin} if origin in origins and origin is not None else {}
        return {**allowed, "Vary": "Origin"}

    def _with(self, status: int, kind: Optional[str], body: bytes, headers: Mapping[str, str] = {}) -> Answer:
        told = {"Content-Type": f"{kind}; charset=utf-8"} if kind else {}
        if status != 204:
            told["Content-Length"] = str(len(body))
        told.update(self.headers())
        told.update(headers)
        return Answer(status, told, b"" if self.request.method == "HEAD" else body)


def one_of(given: Any) -> Union[Asked, Fault]:
    """A request of a list, or what is wrong with it."""
    try:
        return parameters(given)
    except Fault as fault:
        return fault


def too_long(limit: int) -> Fault:
    """The fault of a body that is too long."""
    return Fault(413, f"the request has more than {limit} bytes")


def called(execute: Callable[[Asked], bytes], asked: Union[Asked, Fault]) -> Outcome:
    """What comes of one request."""
    if isinstance(asked, Fault):
        return asked
    try:
        return execute(asked)
    except Exception as error:
        return error


def answer(request: Request, execute: Callable[[Asked], bytes], rules: Rules = Rules()) -> Answer:
    """The answer to a request by GraphQL over HTTP. ``execute`` gives the JSON of a response to what is asked.

    What it raises is answered too: :class:`sunwaket.Refused` as a fault of the query, a :class:`Fault` by its status, want of memory
    by 503, anything else by 500.
    """
    exchange = Exchange(request, rules)
    return exchange.answer([called(execute, asked) for asked in exchange.asked])
