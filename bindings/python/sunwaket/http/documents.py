"""Persisted queries: texts by their SHA-256, which a client names in place of a text.

A store has ``get`` and ``put``; ``is_slow`` says that they wait for another machine, and ``is_closed`` that nothing but what is listed
is answered.
"""

from __future__ import annotations

import hashlib
import threading
from collections import OrderedDict
from typing import Iterable, Optional

from .redis import Redis


def sum_of(text: str) -> str:
    """The SHA-256 of a text, as clients write it."""
    return hashlib.sha256(text.encode("utf-8")).hexdigest()


class MemoryDocuments:
    """Texts in memory, in all at most ``room`` bytes: the least recently used goes first."""

    is_slow = False
    is_closed = False

    def __init__(self, room: int = 16 << 20):
        self._room, self._size = room, 0
        self._kept: "OrderedDict[str, str]" = OrderedDict()
        self._lock = threading.Lock()

    def get(self, key: str) -> Optional[str]:
        """The text of a sum."""
        with self._lock:
            if key not in self._kept:
                return None
            self._kept.move_to_end(key)
            return self._kept[key]

    def put(self, key: str, text: str) -> None:
        """Keeps a text."""
        with self._lock:
            if key not in self._kept:
                self._size += self._size_of(text)
            self._kept[key] = text
            while self._size > self._room and self._kept:
                self._size -= self._size_of(self._kept.popitem(last=False)[1])

    @staticmethod
    def _size_of(text: str) -> int:
        # A text, its sum and their places in the table.
        return 4 * len(text) + 400


class ListedDocuments:
    """The texts that are listed, and no other: a client may name one or send one of them."""

    is_slow = False
    is_closed = True

    def __init__(self, texts: Iterable[str]):
        self._texts = {sum_of(text): text for text in texts}

    def get(self, key: str) -> Optional[str]:
        """The text of a sum."""
        return self._texts.get(key)

    def put(self, key: str, text: str) -> None:
        """Nothing is added."""


class RedisDocuments:
    """Texts in a Redis server, which several processes share. They are kept for ``seconds`` after they were put.

    Where the server cannot be reached, a text is as if it were not kept: clients send it then.
    """

    is_slow = True
    is_closed = False

    def __init__(self, host: str = "127.0.0.1", port: int = 6379, *, seconds: int = 86_400, prefix: str = "sunwaket:", password: Optional[str] = None):
        self._redis, self._seconds, self._prefix = Redis(host, port, password), seconds, prefix

    def get(self, key: str) -> Optional[str]:
        """The text of a sum. One that has another sum, which someone else put there, is none."""
        try:
            found = self._redis.ask("GET", self._prefix + key)
            text = found.decode("utf-8") if isinstance(found, bytes) else None
        except (OSError, ValueError):
            return None
        return text if text is not None and sum_of(text) == key else None

    def put(self, key: str, text: str) -> None:
        """Keeps a text."""
        try:
            self._redis.ask("SET", self._prefix + key, text, "EX", str(self._seconds))
        except (OSError, ValueError):
            pass
