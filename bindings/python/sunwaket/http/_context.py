"""What resolvers learn of the request that they answer."""

from contextvars import ContextVar
from typing import Any

current: "ContextVar[Any]" = ContextVar("sunwaket.http.context", default=None)


def context() -> Any:
    """What the endpoint's ``context`` function made of the request that is answered here; None where there is none."""
    return current.get()
