"""The text that a request asks, where it may name one by its sum."""

from __future__ import annotations

from typing import Any, Optional

from .documents import sum_of
from .rules import Asked, Fault

#: A store of persisted queries.
Documents = Any


def named(asked: Asked) -> Optional[str]:
    """The sum that a request names. Raises a Fault (400) where it names none rightly."""
    given = asked.extensions.get("persistedQuery")
    if given is None:
        return None
    key = given.get("sha256Hash") if isinstance(given, dict) and given.get("version") == 1 else None
    if not isinstance(key, str) or len(key) != 64 or not set(key) <= set("0123456789abcdef"):
        raise Fault(400, "`persistedQuery` is no version 1 with a `sha256Hash` of 64 digits")
    return key


def text_of(documents: Documents, asked: Asked) -> str:
    """The text that is asked. Raises a Fault where it is not known, is not listed, or has another sum than the one that is named."""
    if documents is None and asked.query is not None:
        return asked.query
    key = named(asked)
    if documents is None or (asked.query is None and key is None):
        raise Fault(None, "PersistedQueryNotSupported", "PERSISTED_QUERY_NOT_SUPPORTED")
    if asked.query is None:
        found = documents.get(key)
        if found is None:
            raise not_known(documents)
        return found
    if documents.is_closed and documents.get(sum_of(asked.query)) is None:
        raise not_known(documents)
    if key is not None and key != sum_of(asked.query):
        raise Fault(400, "the query has another SHA-256 than the one that is named")
    return asked.query


def not_known(documents: Documents) -> Fault:
    """The fault of a text that is not in a store."""
    if documents.is_closed:
        return Fault(403, "only listed queries are answered", "QUERY_NOT_LISTED")
    return Fault(None, "PersistedQueryNotFound", "PERSISTED_QUERY_NOT_FOUND")


def keep(documents: Documents, asked: Asked, text: str) -> None:
    """Keeps the text of a query that was read under the sum that the request names."""
    if documents is not None and asked.query is not None and "persistedQuery" in asked.extensions:
        documents.put(sum_of(text), text)
