"""Queries that were read, kept by their texts, so that one that comes again is not read again."""

from __future__ import annotations

import contextlib
import threading
from collections import OrderedDict
from typing import Dict, NamedTuple, Optional, Tuple

from .. import _selections as selections
from .._api import Schema
from ._limits import Limits

#: What a query that was read is reckoned to hold: so many bytes, and so many times the bytes of its text (measured: docs/SERVERS.md).
OWN, TIMES = 12_000, 100


class Operation(NamedTuple):
    """What is known of an operation before it is executed."""

    name: Optional[str]
    kind: Optional[str]
    depth: int
    cost: Optional[int]


class ReadQuery:
    """A query and what is known of its operations."""

    __slots__ = ("_known", "query", "size", "text")

    def __init__(self, schema: Schema, text: str):
        self.text, self.query = text, schema.query(text)
        self.size = OWN + TIMES * len(text)
        self._known: Dict[Optional[str], Operation] = {}

    def operation(self, name: Optional[str], limits: Limits, is_watched: bool) -> Operation:
        """The operation of the name, or the only one. Raises ``TooCostly`` where its cost is above the limit."""
        found = self._known.get(name)
        if found is None:
            found = self._look(name, limits, is_watched)
            if found.kind is not None:
                self._known[name] = found
        return found

    def _look(self, name: Optional[str], limits: Limits, is_watched: bool) -> Operation:
        kind = self.query.kind(name)
        if kind is None:
            return Operation(None, None, 0, None)
        cost = None if limits.nodes is None else self.query.cost(items=limits.items, limit=limits.nodes, operation_name=name)
        own, depth = name, 0
        if limits.depth is not None:
            own, depth = self._name_and_depth(name)
        elif is_watched and name is None:
            with contextlib.suppress(RecursionError):
                own, depth = self._name_and_depth(None)
        return Operation(own, kind, depth, cost)

    def _name_and_depth(self, name: Optional[str]) -> Tuple[Optional[str], int]:
        """What the text says of an operation. Raises ``RecursionError`` where it is nested some hundred levels deep."""
        document = selections.read(self.text)
        operation = document.operation(name)
        return (operation.name, selections.depth(document, operation.selections)) if operation else (name, 0)


class ReadQueries:
    """The queries of a schema that were asked last: the least recently used goes first. Any thread may use it."""

    def __init__(self, schema: Schema, room: int):
        self._schema, self._room = schema, room
        self._kept: "OrderedDict[str, ReadQuery]" = OrderedDict()
        self._lock = threading.Lock()
        self._size = 0
        #: How often a query was found, and how often one was read.
        self.found, self.read = 0, 0

    def get(self, text: str) -> ReadQuery:
        """The query of a text. Raises ``QueryRefused``, and keeps nothing, where it is none."""
        with self._lock:
            kept = self._kept.get(text)
            if kept is not None:
                self._kept.move_to_end(text)
                self.found += 1
                return kept
        made = ReadQuery(self._schema, text)
        with self._lock:
            self.read += 1
            self._keep(made)
        return made

    def _keep(self, made: ReadQuery) -> None:
        before = self._kept.pop(made.text, None)
        self._size += made.size - (before.size if before else 0)
        self._kept[made.text] = made
        while self._size > self._room and self._kept:
            self._size -= self._kept.popitem(last=False)[1].size

    def __len__(self) -> int:
        return len(self._kept)
