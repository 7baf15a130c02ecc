#!/usr/bin/env python3
"""Gives the response checker's program what the engine answers to the requests of checks/rows.json and of examples/. Each answer with
data must be explained; without its data, with one error more, and without its last byte it must get another verdict, which is known."""
import json
import sys

from shared.trying import ROOT, try_cases

# A response that is read may be nested so deep.
MOST_LEVELS = 127

# No place has an empty path, so no fault has one.
FALSE_ERROR = {"message": "", "path": []}


def read(text):
    """The members of a text of JSON, or none where it is no object."""
    try:
        value = json.loads(text)
    except ValueError:
        return {}
    return value if isinstance(value, dict) else {}


def levels(value):
    """How many lists and objects stand in one another."""
    inner = value.values() if isinstance(value, dict) else value if isinstance(value, list) else None
    return 0 if inner is None else 1 + max(map(levels, inner), default=0)


def answered():
    """Name, request and response of each request that the engine answers, by what stands beside it."""
    for row in json.loads((ROOT / "checks" / "rows.json").read_text(encoding="utf-8")):
        if row.get("words", "answer") == "answer" and row["status"] == 0:
            yield f"row-{row['name']}", read(row["input"] * row.get("times", 1)), row["output"].rstrip("\n")
    for path in sorted((ROOT / "examples").glob("*.json")):
        yield f"example-{path.stem}", read(path.read_text(encoding="utf-8")), path.with_suffix(".answer").read_text(encoding="utf-8").rstrip("\n")


def judged(name, response):
    """Name, text and verdict of a response as it came, and as it is damaged."""
    value = read(response)
    yield name, response, "explained"
    yield f"{name}-cut", response[:-1], "not a response"
    errors = value.get("errors", [])
    yield f"{name}-more", json.dumps(value | {"errors": [*errors, FALSE_ERROR]}), f"false error {len(errors)}"
    if value["data"] is not None and not errors:
        yield f"{name}-null", '{"data":null}', "bad value at []"


def main():
    alike = [(name, request, response) for name, request, response in answered() if request and "data" in read(response)]
    cases = []
    for name, request, response in alike:
        if levels(read(response)) <= MOST_LEVELS:
            for case, text, verdict in judged(name, response):
                cases.append((case, json.dumps(request | {"response": text}).encode(), f"{verdict}\n"))
    statuses, as_wanted = try_cases("gql_checker_program", "", cases)
    failed = 0
    for name, _text, output in cases:
        wanted = 0 if output == "explained\n" else 1
        if statuses.get(name) != wanted or name not in as_wanted:
            failed += 1
            print(f"checker: {name}: status {statuses.get(name, 'none, it did not run')}, wanted {wanted} and {output.rstrip()!r}")
    print(f"checker: {len(cases) - failed} passed, {failed} failed")
    return 1 if failed or not cases else 0


if __name__ == "__main__":
    sys.exit(main())
