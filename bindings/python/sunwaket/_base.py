"""What schemas, queries and data have in common: a handle of the library, with its lock; and texts as the library takes them."""

from __future__ import annotations

import ctypes
import json
import threading
from ctypes import addressof, byref
from typing import Any, Mapping, TypeVar, Union

from . import _library as library

#: The values of variables, and data: an object, or its JSON.
Json = Union[Mapping[str, Any], str, bytes]

# One encoder for all: `json.dumps` would make one for each call.
encode = json.JSONEncoder(ensure_ascii=False, separators=(",", ":")).encode

Self = TypeVar("Self", bound="Value")


def json_bytes(value: Json) -> bytes:
    """The JSON of an object."""
    if isinstance(value, bytes):
        return value
    return (value if isinstance(value, str) else encode(value)).encode("utf-8")


def text_bytes(text: Union[str, bytes]) -> bytes:
    return text.encode("utf-8") if isinstance(text, str) else text


def take(reply: library.Handle) -> bytes:
    """The bytes of a reply, which is let go."""
    length = library.reply_length(byref(reply))
    # Room of one of few lengths: ctypes makes a class for each.
    room = ctypes.create_string_buffer(1 << length.bit_length())
    library.reply_copy(byref(reply), room, length)
    library.free(byref(reply))
    return ctypes.string_at(room, length)


def refuse(status: int, why: str) -> Exception:
    """What is raised for a status that says nothing of the text or the request."""
    if status == library.NO_MEMORY:
        return MemoryError()
    if status == library.WRONG_HANDLE:
        return ValueError("the value is closed")
    return ValueError(why)


class Value:
    """A handle, and the lock that keeps it to one call at a time."""

    __slots__ = ("_at", "_handle", "_lock", "__weakref__")

    def __init__(self) -> None:
        self._handle = library.Handle()
        self._at = addressof(self._handle)
        self._lock = threading.Lock()

    def share(self: Self) -> Self:
        """The same value for another thread. It costs no copy.

        >>> Schema("type Query { a: Int }").share().query("{ a }").kind()
        'query'
        """
        other = type(self).__new__(type(self))
        Value.__init__(other)
        self._copy_into(other)
        with self._lock:
            status = library.share(byref(self._handle), byref(other._handle))
        if status != library.ANSWERED:
            raise refuse(status, "")
        return other

    def _copy_into(self, other: Any) -> None:
        """Gives a share what it has besides its handle."""

    def close(self) -> None:
        """Lets go of the value. Without it that is done when Python lets go of the object.

        >>> data = Data({})
        >>> data.close()
        """
        with self._lock:
            library.free(byref(self._handle))

    def __enter__(self: Self) -> Self:
        return self

    def __exit__(self, *_: object) -> None:
        self.close()

    def __del__(self) -> None:
        handle = getattr(self, "_handle", None)
        if handle is not None:
            library.free(byref(handle))


class Data(Value):
    """The object that a query begins at, read once.

    ``value`` is a mapping, or its JSON. ``ValueError`` is raised where it is no JSON text of an object, or has a number that is not
    whole or does not fit 64 bits.

    >>> Data({"book": {"title": "Emma"}}).close()
    >>> Data(b'{"book":null}').close()
    >>> Data({"half": 0.5})
    Traceback (most recent call last):
    ValueError: the data are no JSON object of whole numbers
    """

    __slots__ = ()

    def __init__(self, value: Json):
        super().__init__()
        text = json_bytes(value)
        status = library.data_new(text, len(text), byref(self._handle))
        if status != library.ANSWERED:
            raise refuse(status, "the data are no JSON object of whole numbers")
