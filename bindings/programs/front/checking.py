"""`gql check SCHEMA QUERY`: reports by the proved program, told of the files that were named and shown with their lines on a terminal."""

import json
import os
import sys

from programs import DONE, MISUSED, UNWRITABLE, end, read, write
from reports import Source, renamed, shown
from requests import Request

USAGE = "usage: gql check [REQUEST.json | -]\n       gql check SCHEMA [QUERY]"

# A query that any schema takes: with it the schema alone is checked.
ANY_QUERY = b"{ __typename }"


def is_plain():
    """Whether reports are written as the program writes them: not to a terminal, or to one that is to have no colours."""
    return bool(os.environ.get("NO_COLOR")) or not sys.stdout.isatty()


def texts_of(request):
    """The texts of a request, as far as it has them."""
    try:
        members = json.loads(request)
    except (ValueError, RecursionError):
        return {}
    members = members if isinstance(members, dict) else {}
    return {kind: Source(f"{kind}.graphql", members[kind]) for kind in ("schema", "query") if isinstance(members.get(kind), str)}


def of_files(schema, query):
    """The request, and the texts by what they are."""
    if schema == query == "-":
        end(MISUSED, "standard input is read once")
    texts = {"schema": read(schema), "query": ANY_QUERY if query is None else read(query)}
    names, request = {"schema": schema, "query": query or "query"}, Request()
    for kind, text in texts.items():
        request.add_text(kind, text, names[kind])
    return request, {kind: Source(names[kind], text.decode("utf-8", "replace")) for kind, text in texts.items()}


def asked(words):
    """The request, and its texts by what they are."""
    if "--help" in words or "-h" in words:
        print(USAGE)
        sys.exit(DONE)
    if any(word.startswith("-") and word != "-" for word in words) or len(words) > 2:
        print(USAGE, file=sys.stderr)
        sys.exit(MISUSED)
    if not words or len(words) == 1 and (words[0] == "-" or words[0].endswith(".json")):
        content = read(words[0] if words else "-")
        return Request(content), texts_of(content)
    return of_files(words[0], words[1] if len(words) == 2 else None)


def check(proved, words):
    """Checks; gives the program's status."""
    request, sources = asked(words)
    status, written = proved.run("check", request.whole())
    request.tell_place(written)
    if is_plain():
        written = renamed(written, sources)
    else:
        written = shown(written.decode("utf-8", "replace"), sources).encode("utf-8")
    return status if write(written) else UNWRITABLE
