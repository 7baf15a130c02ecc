"""What is said of public items: documentation before each, and a clause on what each function gives, or a word on why not."""
import re

from shared.sources import crates, files_of, shown

FUNCTION = re.compile(r"(?m)^((?: *(?:///|#\[).*\n)*) *pub (?:const |unsafe )*fn (\w+)([^{}]*(?:\{[^\n]*\}[^{}]*)*)")
ITEM = re.compile(r"\s*pub (?:const |unsafe )*(?:fn|struct|enum|trait|type|const) (\w+)")


def faults():
    for crate in crates():
        for file in files_of(crate, "src", ".rt"):
            text = file.read_text()
            said = [] if crate.name.startswith("tests_") else unsaid(text)
            yield from (f"{shown(file)}: no clause says what `{name}` gives" for name in said)
            yield from (f"{shown(file)}: no documentation of `{name}`" for name in undocumented(text))


def unsaid(text):
    """The public functions that have neither a clause on their result nor a word on why there is none."""
    for documentation, name, head in FUNCTION.findall(text):
        if "ensures" not in head and "No clause says" not in documentation:
            yield name


def undocumented(text):
    """The public items that no documentation stands before."""
    lines = text.split("\n")
    for place, line in enumerate(lines):
        found = ITEM.match(line)
        before = place - 1
        while found and before >= 0 and lines[before].strip().startswith("#["):
            before -= 1
        if found and not (before >= 0 and lines[before].strip().startswith("///")):
            yield found.group(1)
