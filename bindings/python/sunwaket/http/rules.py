"""What GraphQL over HTTP says of requests and answers: media types, parameters, statuses."""

import json
from typing import NamedTuple, Optional
from urllib.parse import parse_qs

GRAPHQL = "application/graphql-response+json"
JSON = "application/json"
EVENTS = "text/event-stream"

# What an `Accept` header may name, and what it is answered with.
ANSWERED_WITH = {GRAPHQL: GRAPHQL, JSON: JSON, "application/*": GRAPHQL, "*/*": JSON}
STREAMED_WITH = {**ANSWERED_WITH, EVENTS: EVENTS}


class Fault(Exception):
    """A request that is answered without a response: a status, a message and further headers.

    Without a status it is a refusal of the query, whose status is that of a fault of validation. ``code`` stands in the extensions of
    the error. A ``context`` function may raise one, as ``Fault(401, "who are you?")``.
    """

    def __init__(self, status, message, code=None, **headers):
        super().__init__(message)
        self.status = status
        self.errors = [{"message": message, **({"extensions": {"code": code}} if code else {})}]
        self.headers = {name.replace("_", "-"): value for name, value in headers.items()}


class Asked(NamedTuple):
    """What a request asks."""

    #: The text of a query; None where the extensions name one that is known.
    query: Optional[str]
    operation_name: Optional[str]
    variables: dict
    extensions: dict


def quality_and_charset(parts):
    """The quality (0 to 1) and the charset that the parameters of a media range tell."""
    quality, charset = 1.0, "utf-8"
    for part in parts:
        key, _, value = part.partition("=")
        if key.strip().lower() == "q":
            try:
                quality = float(value)
            except ValueError:
                quality = 0.0
        elif key.strip().lower() == "charset":
            charset = value.strip(' "').lower()
    return quality, charset


def accepted(header, has_streams=False):
    """The media type of the answer: by quality, then by order. The older type where the header is silent.

    Raises a Fault (406) where the header allows neither.
    """
    kinds = STREAMED_WITH if has_streams else ANSWERED_WITH
    if not header:
        return JSON
    best, chosen = 0.0, None
    for given in header.split(","):
        name, *parts = (part.strip() for part in given.split(";"))
        quality, charset = quality_and_charset(parts)
        kind = kinds.get(name.lower())
        if kind and charset in ("utf-8", "utf8") and quality > best:
            best, chosen = quality, kind
    if chosen is None:
        raise Fault(406, f"the answer is {GRAPHQL} or {JSON}, in UTF-8")
    return chosen


def no_constant(word):
    """There is no such number in JSON."""
    raise ValueError(word)


def json_of(text, name):
    """What the JSON text of a parameter in an address spells. Raises a Fault (400) where it is none."""
    try:
        return json.loads(text, parse_constant=no_constant)
    except (ValueError, RecursionError) as error:
        raise Fault(400, f"`{name}` is no JSON text") from error


def from_address(query_string):
    """The parameters of a GET request, by name. Empty ones are left out."""
    given = {name: values[-1] for name, values in parse_qs(query_string).items()}
    for name in ("variables", "extensions"):
        if name in given:
            given[name] = json_of(given[name], name)
    return given


def from_body(body, content_type, charset):
    """The parameters of a POST request. Raises a Fault: 415 for another media type or charset, 400 where the body is no JSON."""
    if content_type != JSON or charset.lower() not in ("utf-8", "utf8"):
        raise Fault(415, f"the request is {JSON}, in UTF-8", Accept_Post=JSON)
    try:
        return json.loads(body.decode("utf-8"), parse_constant=no_constant)
    except (ValueError, RecursionError) as error:
        raise Fault(400, "the request is no JSON text") from error


KINDS = {"operationName": (str, "text"), "variables": (dict, "object"), "extensions": (dict, "object")}


def parameters(given):
    """What the parameters ask. Raises a Fault (400) where one is missing or of a wrong kind."""
    if not isinstance(given, dict):
        raise Fault(400, "the request is no object")
    for name, (kind, word) in KINDS.items():
        if given.get(name) is not None and not isinstance(given[name], kind):
            raise Fault(400, f"the parameter `{name}` is no {word}")
    query, extensions = given.get("query"), given.get("extensions") or {}
    if query is not None and not isinstance(query, str):
        raise Fault(400, "the parameter `query` is no text")
    if query is None and "persistedQuery" not in extensions:
        raise Fault(400, "the parameter `query` is missing")
    return Asked(query, given.get("operationName"), given.get("variables") or {}, extensions)


def refusal_status(kind):
    """The status of an answer without data: the older media type has 200, since intermediaries speak it too."""
    return 200 if kind == JSON else 400
