#!/usr/bin/env python3
"""The program `gql_program` once more, over the package: `program.py answer` and `program.py check` read a request from standard input,
write what the program writes, and end with its status. `program.py resolve` answers by resolvers, those that take what the data have."""

import json
import pathlib
import sys

sys.path.insert(0, str(pathlib.Path(__file__).resolve().parent.parent))

from sunwaket import Query, QueryRefused, RequestRefused, Schema, SchemaRefused, check

ANSWERED, REFUSED, MISUSED, NO_MEMORY, TOO_LONG = 0, 1, 2, 3, 6
LIMIT = 16_777_216
USAGE = b"usage: gql_program answer | check | selftest N\n"

# The members of a request, in the order in which they are looked at, and of which type each is.
TEXTS = ["schema", "query"]
OTHERS = {"operationName": str, "variables": dict, "introspection": bool, "data": dict}


class NoRequest(Exception):
    """The bytes are no request."""


def read(text):
    """The members of a request. Its JSON is read by the library, whose refusals of variables have the same kinds and places."""
    try:
        Schema("type Query { a: Int }").query("{ a }").execute(variables=text or b" ")
    except RequestRefused as refused:
        message = refused.errors[0]["message"].replace("variables: ", "request: ", 1)
        raise NoRequest(message if text else "request: syntax at byte 0") from None
    request = json.loads(text.decode("utf-8"))
    for name in TEXTS:
        if name not in request:
            raise NoRequest(f"request: member `{name}` is missing")
        if not isinstance(request[name], str):
            raise NoRequest(f"request: member `{name}` has a wrong kind")
    for name, kind in OTHERS.items():
        if request.get(name) is not None and not isinstance(request[name], kind):
            raise NoRequest(f"request: member `{name}` has a wrong kind")
    return request


def answer(request, call):
    query = Schema(request["schema"]).query(request["query"])
    return call(
        query,
        request.get("data") or {},
        operation_name=request.get("operationName"),
        variables=request.get("variables"),
        introspection=request.get("introspection") or False,
    )


CALLS = {"answer": Query.execute, "resolve": Query.resolve}


def run(words, text):
    """The status, and what is written."""
    if words not in (["answer"], ["check"], ["resolve"]):
        return MISUSED, USAGE
    if len(text) > LIMIT:
        return TOO_LONG, b""
    try:
        request = read(text)
        if words[0] in CALLS:
            return ANSWERED, answer(request, CALLS[words[0]]) + b"\n"
        found = check(request["schema"], request["query"])
        return (REFUSED, found.encode("utf-8")) if found else (ANSWERED, b"ok\n")
    except NoRequest as fault:
        told = json.dumps({"errors": [{"message": str(fault)}]}, ensure_ascii=False, separators=(",", ":"))
        return REFUSED, told.encode("utf-8") + b"\n"
    except (SchemaRefused, QueryRefused, RequestRefused) as refused:
        return REFUSED, refused.json + b"\n"
    except MemoryError:
        return NO_MEMORY, b""


def main():
    status, written = run(sys.argv[1:], sys.stdin.buffer.read(LIMIT + 1))
    sys.stdout.buffer.write(written)
    sys.stdout.buffer.flush()
    return status


if __name__ == "__main__":
    sys.exit(main())
