#!/usr/bin/env python3
"""Gives the gateway's program the requests of checks/rows.json and of examples/. It must write what the engine writes with
introspection on, where that has data or refuses the request; without data the errors may stand otherwise."""
import json
import re
import sys

from shared.trying import ROOT, try_cases

# What is answered otherwise, or nested too deep, where introspection is on.
ASKING = re.compile(r"__schema|__type\b|fields|interfaces|possibleTypes|inputFields")

# The row that only a gateway refuses, and what it says.
LARGE = "row-thirty-fragments-that-spread-twice"
TOO_LARGE = '{"errors":[{"message":"gateway: expansion too large"}]}\n'


def read(text):
    """The members of a request, or none where it is no object."""
    try:
        request = json.loads(text)
    except ValueError:
        return {}
    return request if isinstance(request, dict) else {}


def is_answered_alike(text, output):
    """Whether introspection makes no difference to a request, or is on, and its answer is a refusal or has data."""
    request = read(text)
    is_on = request.get("introspection") is True
    return (is_on or not ASKING.search(str(request.get("query")))) and json.loads(output).get("data", {}) is not None


def requests():
    """Name, text, and output of each request that the engine answers, by what stands beside it."""
    for row in json.loads((ROOT / "checks" / "rows.json").read_text(encoding="utf-8")):
        if row.get("words", "answer") == "answer" and row["status"] in (0, 1):
            yield f"row-{row['name']}", row["input"] * row.get("times", 1), row["output"]
    for path in sorted((ROOT / "examples").glob("*.json")):
        yield f"example-{path.stem}", path.read_text(encoding="utf-8"), path.with_suffix(".answer").read_text(encoding="utf-8")


def main():
    alike = [it for it in requests() if is_answered_alike(*it[1:])]
    cases = [(name, text.encode(), TOO_LARGE if name == LARGE else output) for name, text, output in alike]
    statuses, as_wanted = try_cases("gql_gateway_program", "", cases)
    failed = 0
    for name, _text, output in cases:
        wanted = 0 if "data" in json.loads(output) else 1
        if statuses.get(name) != wanted or name not in as_wanted:
            failed += 1
            print(f"gateway: {name}: status {statuses.get(name, 'none, it did not run')}, wanted {wanted}, or another output")
    print(f"gateway: {len(cases) - failed} passed, {failed} failed")
    return 1 if failed or not cases else 0


if __name__ == "__main__":
    sys.exit(main())
