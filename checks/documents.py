#!/usr/bin/env python3
"""Compares the README and docs/ with the repository: the README is short, code that a page shows is the code of the file
that it names, each crate stands in docs/PROVED.md and docs/ARCHITECTURE.md, each arrow of the diagram there is a dependency
of crates.txt, and each file that a page names is there."""
import re
import sys

from shared.sources import ROOT, crates, shown, stands_on, tell

MOST_WORDS = 1400

# A note before a block of code: the whole file, or some of its lines in their order.
BLOCK = re.compile(r"<!-- (all|lines) of (\S+) -->\n```\w*\n(.*?)```", re.DOTALL)

# A file of the repository that a page names.
NAMED = re.compile(r"`((?:docs|checks|examples|crates|\.ci)/[\w./-]*\w)`")


def faults():
    pages = [ROOT / "README.md", *sorted((ROOT / "docs").glob("*.md"))]
    words = len(pages[0].read_text().split())
    if words > MOST_WORDS:
        yield f"README.md: {words} words, at most {MOST_WORDS}"
    for page in pages:
        yield from (f"{shown(page)}: {fault}" for fault in code(page.read_text()))
        for name in NAMED.findall(page.read_text()):
            if not (ROOT / name).exists():
                yield f"{shown(page)}: there is no {name}"
    yield from crates_named(ROOT / "docs" / "PROVED.md")
    yield from crates_named(ROOT / "docs" / "ARCHITECTURE.md")
    yield from arrows(ROOT / "docs" / "ARCHITECTURE.md")


def code(text):
    """The blocks of code that differ from the files that they are said to be of."""
    for extent, name, block in BLOCK.findall(text):
        file = ROOT / name
        held = file.read_text() if file.is_file() else ""
        if extent == "all" and block != held:
            yield f"the code shown is not that of {name}"
        lines = iter(held.splitlines())
        for line in block.splitlines() if extent == "lines" else []:
            if line not in lines:
                yield f"{name} has no line `{line.strip()}` at this place"
                break


def crates_named(page):
    """A fault for each crate that the page does not name."""
    text = page.read_text()
    for crate in crates():
        if not re.search(rf"\b{crate.name}\b", text):
            yield f"{shown(page)}: nothing is said of the crate {crate.name}"


def arrows(page):
    """A fault for each arrow of the diagram whose crate does not stand on the other."""
    lists = stands_on()
    for crate, others in re.findall(r"(?m)^ +(\w+) --> (.+)$", page.read_text()):
        for other in others.split(" & "):
            if other not in lists.get(crate, []):
                yield f"{shown(page)}: an arrow from {crate} to {other}, on which it does not stand by crates.txt"


if __name__ == "__main__":
    sys.exit(tell("documents", list(faults())))
