"""Requests in rounds: all that can be asked, answered by resolvers, until there is a response."""

from __future__ import annotations

import inspect
import json
from typing import Any, Callable, Dict, Iterable, List, Mapping, Tuple

from . import _library as library
from ._base import Value, encode, refuse
from ._field_types import FieldType, FieldTypes
from ._resolvers import PLAIN, Ask, Many, Resolver
from ._told import Teller

# One decoder for all, as with the encoder.
_decode = json.JSONDecoder().decode

#: Whether something is asked, and the JSON of the asks or of the response.
Step = Callable[[], Tuple[bool, bytes]]


class Rounds:
    """A request by resolvers. ``step`` makes a step by all that ``answers`` has.

    Where it is ``serial``, as a mutation is, a field of the root is asked once nothing else is."""

    def __init__(self, step: Step, answers: Value, types: FieldTypes, teller: Teller, serial: bool):
        self._step, self._answers, self._types, self._teller, self._serial = step, answers, types, teller, serial
        self._response = b""
        self._last = b""
        self._meter: Any = None

    def measured_by(self, meter: Any) -> None:
        """Has ``meter.timed`` stand around each step, and tells ``meter.round`` how much a round asks. What that raises ends the request."""
        self._step, self._meter = meter.timed(self._step), meter

    def run(self) -> bytes:
        """The response, where no resolver gives what is to be awaited."""
        while True:
            groups = self._next()
            if not groups:
                return self._response
            for group in groups:
                group.start()
                group.expect_values()
            self._tell(groups)

    async def run_async(self) -> bytes:
        """The response, where what resolvers give in a round is awaited at once."""
        while True:
            groups = self._next()
            if not groups:
                return self._response
            for group in groups:
                group.start()
            await _await_all(groups)
            self._tell(groups)

    def _next(self) -> List[_Group]:
        """What the next round asks, field by field; nothing where there is the response."""
        asked, told = self._step()
        if not asked:
            self._response = told
            return []
        if told == self._last:
            raise RuntimeError("the library asks once more for what it was told")
        self._last = told
        asks = self._due(_decode(told.decode("utf-8")))
        if self._meter is not None:
            self._meter.round(len(asks))
        return self._groups(asks)

    def _due(self, asks: List[Dict[str, Any]]) -> List[Dict[str, Any]]:
        """Those asks that may be answered now."""
        if not self._serial:
            return asks
        below = [ask for ask in asks if ask["object"] != 0]
        if below:
            return below
        # What was read of an object before this field is resolved may be another value after it.
        self._teller.forget()
        return asks[:1]

    def _groups(self, asks: List[Dict[str, Any]]) -> List[_Group]:
        groups: Dict[Tuple[str, str], _Group] = {}
        objects = self._teller.objects
        for ask in asks:
            key = (ask["type"], ask["field"])
            group = groups.get(key)
            if group is None:
                groups[key] = group = _Group(key, self._teller.resolvers._of(*key), self._types[key[0]][key[1]])
            number = ask["object"]
            group.add(number, objects[number], ask["arguments"])
        return list(groups.values())

    def _tell(self, groups: List[_Group]) -> None:
        """Adds the answers of a round."""
        told = ",".join([answer for group in groups for answer in group.answers(self._teller)])
        text = f"[{told}]".encode("utf-8")
        with self._answers._lock:
            status = library.answers_add(self._answers._at, text, len(text))
        if status != library.ANSWERED:
            raise refuse(status, "the library does not read these answers")


class _Group:
    """All that a round asks of one field, and what came of it."""

    __slots__ = ("_asks", "_key", "_resolver", "_starts", "_type", "levels", "outcomes")

    def __init__(self, key: Tuple[str, str], resolver: Resolver, ty: FieldType):
        self._key, self._resolver, self._type = key, resolver, ty
        # How the answers begin.
        self._starts: List[str] = []
        self._asks: List[Ask] = []
        #: What each call of the resolver gave: a value, an exception, or what is to be awaited.
        self.outcomes: List[Any] = []
        #: How many lists deep, this one of the outcomes among them, something may be awaited.
        self.levels = 1 + ty.lists + isinstance(resolver, Many)

    def add(self, number: int, value: Any, arguments: Dict[str, Any]) -> None:
        # The resolver may change its arguments, and so they are told as they were.
        told = encode(arguments) if arguments else "{}"
        self._starts.append(f'{{"object":{number},"field":"{self._key[1]}","arguments":{told},"value":')
        self._asks.append((value, arguments))

    def start(self) -> None:
        """Calls the resolver."""
        if isinstance(self._resolver, Many):
            self.outcomes = [_called(self._resolver.function, self._asks)]
        else:
            self.outcomes = [_called(self._resolver, *ask) for ask in self._asks]

    def expect_values(self) -> None:
        """Raises where something is to be awaited."""
        if _is_late(self.outcomes, self.levels):
            _close(self.outcomes, self.levels)
            raise TypeError(f"the resolver of {'.'.join(self._key)} gives what is to be awaited: use resolve_async")

    def answers(self, teller: Teller) -> List[str]:
        """The answers, once nothing is awaited."""
        values = self._values() if isinstance(self._resolver, Many) else self.outcomes
        return [f"{start}{teller.told(value, self._type)}}}" for start, value in zip(self._starts, values)]

    def _values(self) -> List[Any]:
        """What a resolver for many gave, one by one."""
        given, count = self.outcomes[0], len(self._asks)
        if isinstance(given, Exception):
            return [given] * count
        try:
            values = [] if isinstance(given, (str, bytes, Mapping)) else list(given)
        except Exception as error:
            return [error] * count
        if len(values) == count:
            return values
        return [ValueError(f"the resolver of {'.'.join(self._key)} gives {len(values)} values for {count}")] * count


def _called(function: Callable[..., Any], *given: Any) -> Any:
    """What a function gives, or the exception that it raises."""
    try:
        return function(*given)
    except Exception as error:
        return error


def _is_late(value: Any, levels: int) -> bool:
    """Whether a value is to be awaited, or an item of it, so many lists deep."""
    kind = type(value)
    if kind in PLAIN or kind is dict:
        return False
    if kind is list or kind is tuple:
        return levels > 0 and any([_is_late(item, levels - 1) for item in value])
    return hasattr(kind, "__await__")


def _close(values: Iterable[Any], levels: int) -> None:
    """Lets go of coroutines that nothing awaits."""
    for value in values:
        if inspect.iscoroutine(value):
            value.close()
        elif levels > 1 and isinstance(value, (list, tuple)):
            _close(value, levels - 1)


async def _await_all(groups: List[_Group]) -> None:
    """Puts what comes of what is awaited in its place, or the exception that comes of it."""
    late = [group for group in groups if _is_late(group.outcomes, group.levels)]
    if late:
        for group, outcomes in zip(late, await _all_of([(group.outcomes, group.levels) for group in late])):
            group.outcomes = outcomes


async def _all_of(values: List[Tuple[Any, int]]) -> List[Any]:
    """What comes of each value, or the exception, all awaited at once."""
    import asyncio

    found = await asyncio.gather(*[_come_of(*value) for value in values], return_exceptions=True)
    for outcome in found:
        if isinstance(outcome, BaseException) and not isinstance(outcome, Exception):
            raise outcome
    return found


async def _come_of(value: Any, levels: int) -> Any:
    """What comes of a value, and of its items, so many lists deep."""
    if type(value) is not list and type(value) is not tuple and _is_late(value, levels):
        value = await value
    if not _is_late(value, levels):
        return value
    places = [at for at, item in enumerate(value) if _is_late(item, levels - 1)]
    made = list(value)
    for at, outcome in zip(places, await _all_of([(value[at], levels - 1) for at in places])):
        made[at] = outcome
    return made
