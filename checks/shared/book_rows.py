"""A tested request beside each rule: the shortest row of checks/tables/ that breaks it and little else."""
import json
import re
from typing import NamedTuple

from shared.layout_rules import TEXTS, definition_of, rule_rows
from shared.sources import ROOT

TABLES = ROOT / "checks" / "tables"
PATTERN = re.compile(r'(?m)^\s+([A-Z]\w+), \d+, "((?:\\.|[^"\\])*)"')


class Tested(NamedTuple):
    """A request, whether its schema is what is refused, and what is said of it."""

    schema: str
    query: str
    is_of_schema: bool
    refused: list


def tested_rules():
    """For each file of a rule's definition a request that breaks the rule, where the tables have one."""
    patterns = dict(PATTERN.findall(TEXTS.read_text()))
    rows, found = list(refused_rows()), {}
    for _, rule, _, file, name in rule_rows():
        parts = re.split(r"\{\d+\}", patterns[rule].replace('\\"', '"'))
        said = re.compile(r"\S+ " + ".+".join(map(re.escape, parts)))
        breaking = [row for row in rows if any(said.fullmatch(text) for text in row.refused)]
        if breaking:
            found[definition_of(file, name)] = min(breaking, key=lambda row: (len(row.refused), len(row.schema) + len(row.query), row))
    return found


def refused_rows():
    """The rows of all tables that are refused."""
    for table in sorted(TABLES.glob("*.json")):
        for group in json.loads(table.read_text(encoding="utf-8")):
            for row in group["rows"]:
                given = group["request"] | row
                if "refused" in row:
                    schema = given.get("schema", "") + (f"\n{row['types']}" if "types" in row else "")
                    yield Tested(schema, given.get("query", ""), "types" in row or "schema" in row, row["refused"])
