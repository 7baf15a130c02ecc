#!/usr/bin/env python3
"""Runs the program on the worked requests of checks/rows.json, and compares its status and its output with each row.

A row's words are `answer` where it names none. Its input stands so often as `times` says, and has spaces behind it up to as many
bytes as `padded` says."""
import itertools
import json
import sys

from shared.trying import ROOT, try_cases


def words(row):
    return row.get("words", "answer")


def input_of(row):
    return (row["input"] * row.get("times", 1)).encode().ljust(row.get("padded", 0))


def main():
    rows = json.loads((ROOT / "checks" / "rows.json").read_text(encoding="utf-8"))
    statuses, as_wanted = {}, set()
    for said, group in itertools.groupby(sorted(rows, key=words), words):
        cases = [(row["name"], input_of(row), row["output"]) for row in group]
        found, right = try_cases("gql_program", said, cases)
        statuses |= found
        as_wanted |= right
    passed = failed = 0
    for row in rows:
        name = row["name"]
        if statuses.get(name) == row["status"] and name in as_wanted:
            passed += 1
        else:
            failed += 1
            told = "" if name in as_wanted else " and another output"
            print(f"rows: {name}: status {statuses.get(name, 'none, it did not run')}{told}, wanted status {row['status']}")
    print(f"rows: {passed} passed, {failed} failed")
    return 1 if failed or not passed else 0


if __name__ == "__main__":
    sys.exit(main())
