"""GraphQL over HTTP as a WSGI application (PEP 3333), for Flask, gunicorn and whatever else speaks WSGI.

    app = sunwaket.wsgi.GraphQL(schema, resolvers)
"""

from __future__ import annotations

from http import HTTPStatus
from typing import Any, Callable, Dict, List, Optional, Union

from ._api import Schema
from ._resolvers import GivenResolvers
from .http._endpoint import Endpoint
from .http._exchange import Answer, Exchange, Request, too_long
from .http.rules import Fault


class GraphQL:
    """The application: ``options`` are those of :class:`sunwaket.http.Endpoint`, but for ``subscriptions``: WSGI has no streams here.

    With ``path``, other paths are answered by 404. Resolvers run on the server's thread and do not await. A resolver that never ends
    holds that thread: WSGI leaves it to the server to end it.
    """

    def __init__(self, schema: Union[Schema, str], resolvers: GivenResolvers = None, *, path: Optional[str] = None, **options: Any):
        if options.get("subscriptions"):
            raise ValueError("WSGI has no streams: sunwaket.asgi.GraphQL has them")
        self.endpoint = Endpoint(schema, resolvers, **options)
        self._path = path

    def __call__(self, environ: Dict[str, Any], start_response: Callable[..., Any]) -> List[bytes]:
        """One request."""
        answer = self._answer(environ)
        start_response(f"{answer.status} {HTTPStatus(answer.status).phrase}", list(answer.headers.items()))
        return [answer.body]

    def _answer(self, environ: Dict[str, Any]) -> Answer:
        request = request_of(environ)
        try:
            if self._path is not None and environ.get("SCRIPT_NAME", "") + environ.get("PATH_INFO", "") != self._path:
                raise Fault(404, f"there is nothing here but {self._path}")
            if request.method == "POST":
                request = request._replace(body=body_of(environ, self.endpoint.limits.body))
        except Fault as fault:
            return Exchange(request._replace(body=b""), self.endpoint.rules).refused(fault)
        return self.endpoint.answer(request)


def request_of(environ: Dict[str, Any]) -> Request:
    """The request without its body."""
    headers = {name[5:].replace("_", "-").lower(): value for name, value in environ.items() if name.startswith("HTTP_")}
    if environ.get("CONTENT_TYPE"):
        headers["content-type"] = environ["CONTENT_TYPE"]
    return Request(environ["REQUEST_METHOD"], headers, b"", environ.get("QUERY_STRING", ""))


def body_of(environ: Dict[str, Any], limit: int) -> bytes:
    """The body. Raises a Fault: 413 where it is too long, 411 where its length is not told and the server does not end it."""
    told = environ.get("CONTENT_LENGTH") or ""
    if told.isdigit():
        if int(told) > limit:
            raise too_long(limit)
        return environ["wsgi.input"].read(int(told))
    if not environ.get("wsgi.input_terminated"):
        if "HTTP_TRANSFER_ENCODING" in environ:
            raise Fault(411, "the length of the request is missing")
        return b""
    body = environ["wsgi.input"].read(limit + 1)
    if len(body) > limit:
        raise too_long(limit)
    return body
