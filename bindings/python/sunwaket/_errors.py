"""What is raised where a text or a request is refused."""

from __future__ import annotations

import json
from typing import Any


class Refused(ValueError):
    """A text or a request is refused.

    >>> try:
    ...     Schema("type Query { a: Missing }")
    ... except Refused as refused:
    ...     print(refused, refused.errors[0]["locations"])
    cannot find type `Missing` in this document [{'line': 1, 'column': 17}]
    """

    #: The JSON for a client, as bytes: an object whose member ``errors`` has what is wrong.
    json: bytes

    def __init__(self, text: bytes):
        self.json = text
        super().__init__("; ".join(error["message"] for error in self.errors))

    @property
    def errors(self) -> list[dict[str, Any]]:
        """What is wrong, each with its ``message`` and, where it has places, ``locations``."""
        return json.loads(self.json)["errors"]


class SchemaRefused(Refused):
    """The text of a schema means none."""


class QueryRefused(Refused):
    """The text of a query means none against its schema."""


class RequestRefused(Refused):
    """A request has no response: no such operation, a variable that is not coerced, or introspection that goes too deep."""


class TooCostly(RequestRefused):
    """An operation costs more than the limit."""


# As users know them.
for _kind in (Refused, SchemaRefused, QueryRefused, RequestRefused, TooCostly):
    _kind.__module__ = "sunwaket"
