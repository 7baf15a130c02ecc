"""`gql answer --schema F --query F ..`: a request of parts, answered by the proved program."""

import argparse

from programs import MISUSED, UNWRITABLE, end, read, write
from requests import Request, fault_in


def parser():
    made = argparse.ArgumentParser(
        prog="gql answer",
        usage="gql answer [REQUEST.json | -]\n       gql answer --schema F --query F [--data F] [--variables JSON] [--operation NAME] [--introspection]",
        description="Writes the response to a request. A file's name may be `-`, for standard input.",
    )
    made.add_argument("--schema", metavar="F", required=True, help="the file of the schema")
    made.add_argument("--query", metavar="F", required=True, help="the file of the query")
    made.add_argument("--data", metavar="F", help="a JSON file: the object that the query begins at")
    made.add_argument("--variables", metavar="JSON", help="the values of the variables, an object; or @F for a file that has them")
    made.add_argument("--operation", metavar="NAME", help="the name of the operation, where there are several")
    made.add_argument("--introspection", action="store_true", help="answer `__schema` and `__type`")
    return made


def json_member(request, member, name, content):
    """Adds a member whose JSON is given, once that is known to be one value."""
    fault = fault_in(content)
    if fault is not None:
        end(MISUSED, f"{name}:{fault}")
    request.add_json(member, content, name)


def request_of(given):
    """The request that the words tell."""
    if [given.schema, given.query, given.data].count("-") > 1:
        end(MISUSED, "standard input is read once")
    request = Request()
    request.add_text("schema", read(given.schema), given.schema)
    request.add_text("query", read(given.query), given.query)
    if given.data is not None:
        json_member(request, "data", given.data, read(given.data))
    if given.variables is not None:
        is_file = given.variables.startswith("@")
        content = read(given.variables[1:]) if is_file else given.variables.encode("utf-8", "surrogateescape")
        json_member(request, "variables", given.variables[1:] if is_file else "--variables", content)
    if given.operation is not None:
        request.add_text("operationName", given.operation.encode("utf-8", "surrogateescape"), "--operation")
    if given.introspection:
        request.add_json("introspection", b"true", "--introspection")
    return request


def answer(proved, words):
    """Answers; gives the program's status."""
    request = request_of(parser().parse_args(words))
    status, written = proved.run("answer", request.whole())
    if not write(written):
        return UNWRITABLE
    request.tell_place(written)
    return status
