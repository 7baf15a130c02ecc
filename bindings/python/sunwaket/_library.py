"""The calls of the C library, by ctypes. The header ``gql.h`` says what each does."""

from __future__ import annotations

import ctypes
import os
from ctypes import POINTER, c_char_p, c_size_t, c_uint32, c_void_p
from typing import Any

ANSWERED, REFUSED, NO_MEMORY, WRONG_HANDLE, UNREAD, TOO_COSTLY, ASKS = 0, 1, 3, 8, 9, 10, 11
NAMED, INTROSPECTION = 1, 2
MUTATION = 2
KINDS = {1: "query", 2: "mutation", 3: "subscription"}


def _find() -> str:
    """Where the shared library lies: beside this file, or where the environment says."""
    return os.environ.get("SUNWAKET_LIBRARY") or os.path.join(os.path.dirname(os.path.abspath(__file__)), "libgql.so")


class Handle(ctypes.Structure):
    """A value of the library, or none. It is moved nowhere and copied nowhere."""

    _fields_ = [("held", c_void_p)]


class Limit(ctypes.Structure):
    """The most items that a list is taken to have, and the most nodes of a response's data."""

    _fields_ = [("items", c_uint32), ("nodes", c_uint32)]


_library = ctypes.CDLL(_find())

# A handle goes out by its address, a number where it is at hand: a pointer object would be made for each call.
_HANDLE = c_void_p


def _declare(name: str, result: Any, *arguments: Any) -> Any:
    function = getattr(_library, name)
    function.restype = result
    function.argtypes = arguments
    return function


_TEXT = (c_char_p, c_size_t)

schema_new = _declare("gql_schema_new", c_uint32, *_TEXT, _HANDLE, _HANDLE)
query_new = _declare("gql_query_new", c_uint32, _HANDLE, *_TEXT, _HANDLE, _HANDLE)
data_new = _declare("gql_data_new", c_uint32, *_TEXT, _HANDLE)
execute = _declare("gql_execute", c_uint32, _HANDLE, _HANDLE, *_TEXT, *_TEXT, c_uint32, _HANDLE)
answers_add = _declare("gql_answers_add", c_uint32, _HANDLE, *_TEXT)
step = _declare("gql_step", c_uint32, _HANDLE, _HANDLE, *_TEXT, *_TEXT, c_uint32, _HANDLE)
operation_kind = _declare("gql_operation_kind", c_uint32, _HANDLE, *_TEXT, c_uint32, POINTER(c_uint32))
operation_cost = _declare("gql_operation_cost", c_uint32, _HANDLE, *_TEXT, c_uint32, POINTER(Limit), POINTER(c_uint32), _HANDLE)
check = _declare("gql_check", c_uint32, *_TEXT, *_TEXT, _HANDLE)
share = _declare("gql_share", c_uint32, _HANDLE, _HANDLE)
free = _declare("gql_free", None, _HANDLE)
reply_length = _declare("gql_reply_length", c_size_t, _HANDLE)
reply_copy = _declare("gql_reply_copy", c_size_t, _HANDLE, c_void_p, c_size_t)
version = _declare("gql_version", c_uint32)
