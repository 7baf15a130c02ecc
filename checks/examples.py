#!/usr/bin/env python3
"""Runs the program on the requests of examples/, and compares what it writes: NAME.json is answered by NAME.answer, and what
`check` says of it stands in NAME.check, where there is one. What the response checker says of its `response` stands in NAME.verdict."""
import json
import sys

from shared.trying import ROOT, try_cases

EXAMPLES = ROOT / "examples"

# The program and its words for each kind of output.
RUNS = {
    "answer": ("gql_program", "answer"),
    "check": ("gql_program", "check"),
    "verdict": ("gql_checker_program", ""),
}


def wanted_status(kind, output):
    """A response has data and gives status 0, as `ok` and `explained` do; all else gives 1."""
    is_done = "data" in json.loads(output) if kind == "answer" else output in ("ok\n", "explained\n")
    return 0 if is_done else 1


def main():
    passed = failed = 0
    for kind, (program, words) in RUNS.items():
        wanted = {path.stem: path.read_text(encoding="utf-8") for path in sorted(EXAMPLES.glob(f"*.{kind}"))}
        cases = [(name, (EXAMPLES / f"{name}.json").read_bytes(), output) for name, output in wanted.items()]
        statuses, as_wanted = try_cases(program, words, cases)
        for name, output in wanted.items():
            if statuses.get(name) == wanted_status(kind, output) and name in as_wanted:
                passed += 1
            else:
                failed += 1
                print(f"examples: {kind} {name}: status {statuses.get(name, 'none, it did not run')}, or another output")
    for path in EXAMPLES.glob("*.json"):
        if not path.with_suffix(".answer").is_file():
            failed += 1
            print(f"examples: {path.name} has no answer")
    print(f"examples: {passed} passed, {failed} failed")
    return 1 if failed or not passed else 0


if __name__ == "__main__":
    sys.exit(main())
