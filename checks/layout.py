#!/usr/bin/env python3
"""Checks the repository's form, a family of habits at a time. Each fault is one line: where it stands, and what is wrong."""
import sys

from shared import (
    layout_crates,
    layout_documentation,
    layout_files,
    layout_functions,
    layout_habits,
    layout_lemmas,
    layout_repository,
    layout_rules,
)
from shared.sources import tell

FAMILIES = [
    layout_repository,
    layout_crates,
    layout_files,
    layout_documentation,
    layout_functions,
    layout_habits,
    layout_rules,
    layout_lemmas,
]


if __name__ == "__main__":
    sys.exit(tell("layout", [fault for family in FAMILIES for fault in family.faults()]))
