#!/usr/bin/env python3
"""Runs the program on the worked requests of checks/tables/, and compares its status and its output with each row.

    checks/tables.py [TABLE..]

A table is a list of groups. A group says what it is about, and has the members of a request that its rows share, and often
the answer. A row has a name, the members of its own request, or `types` that stand behind the group's schema in a line of
their own, and what comes out. With status 1 that is `refused`, a line for each error: its place and its message. With status
0 it is `answer`, the data of the response, and `errors`, a line for each: its place, its path and its message. A place is
`line:column`, or `-` where there is none; a path is its keys and indices between dots; a message that is told as a suspected
fault of validation ends in ` [suspected]`.
"""
import json
import sys

from shared.trying import ROOT, try_cases

FOLDER = ROOT / "checks" / "tables"
MEMBERS = ["schema", "query", "operationName", "variables", "introspection", "data"]
SUSPECTED = " [suspected]"


def compact(value):
    return json.dumps(value, ensure_ascii=False, separators=(",", ":"))


def located(message, place):
    """An error with that message at that place."""
    error = {"message": message}
    if place != "-":
        line, column = place.split(":")
        error["locations"] = [{"line": int(line), "column": int(column)}]
    return error


def refusal(text):
    """The error of one line of `refused`."""
    place, message = text.split(" ", 1)
    return located(message, place)


def field_error(text):
    """The error of one line of `errors`."""
    place, path, message = text.split(" ", 2)
    error = located(message.removesuffix(SUSPECTED), place)
    error["path"] = [int(part) if part.isdigit() else part for part in path.split(".")]
    if message.endswith(SUSPECTED):
        error["extensions"] = {"APOLLO_SUSPECTED_VALIDATION_BUG": True}
    return error


def wanted(row, answer):
    """The status of a row, and what is written, where the rows of its group have that answer unless they say otherwise."""
    if "refused" in row:
        return 1, {"errors": [refusal(text) for text in row["refused"]]}
    errors = [field_error(text) for text in row.get("errors", [])]
    return 0, ({"errors": errors} if errors else {}) | {"data": row.get("answer", answer)}


def request_of(group, row):
    """The request of a row."""
    given = group["request"] | row
    if "types" in row:
        given["schema"] += "\n" + row["types"]
    return {member: given[member] for member in MEMBERS if member in given}


def rows_of(table):
    """The name, the request, the status and the output of each row of a table."""
    for group in json.loads(table.read_text(encoding="utf-8")):
        for row in group["rows"]:
            status, response = wanted(row, group.get("answer"))
            yield f"{table.stem}: {row['name']}", request_of(group, row), status, compact(response) + "\n"


def main():
    tables = [table for table in sorted(FOLDER.glob("*.json")) if table.stem in (sys.argv[1:] or [table.stem])]
    rows = [row for table in tables for row in rows_of(table)]
    cases = [(f"row{number}", compact(row[1]).encode(), row[3]) for number, row in enumerate(rows)]
    statuses, as_wanted = try_cases("gql_program", "answer", cases)
    names = [name for name, *_ in rows]
    failed = [f"{name} stands twice" for name in sorted(set(names)) if names.count(name) > 1]
    for number, (name, _request, status, _output) in enumerate(rows):
        found = statuses.get(f"row{number}", "none, it did not run")
        if found != status or f"row{number}" not in as_wanted:
            failed.append(f"{name}: status {found}, wanted status {status}, or another output")
    for text in failed:
        print(f"tables: {text}")
    print(f"tables: {len(rows)} rows, {len(failed)} failed")
    return 1 if failed or not rows else 0


if __name__ == "__main__":
    sys.exit(main())
