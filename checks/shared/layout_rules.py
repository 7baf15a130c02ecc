"""The page of rules: each file of a rule has its row there, in the order of the standard's sections, and its definition beside it,
and the heads of both say what the row says."""
import re

from shared.sources import ROOT, crates, files_of, shown

PAGE = ROOT / "docs" / "RULES.md"
MESSAGES = ROOT / "crates" / "gql_diag_messages" / "src"
NAMES = MESSAGES / "rule.rt"
TEXTS = MESSAGES / "rule_text.rt"
ORDER = ROOT / "crates" / "gql_diag" / "src" / "order.rt"

VARIANT = re.compile(r"(?m)^    ([A-Z]\w+),$")
ROW = re.compile(r"(?m)^\| ([\d., -]+) \| [^|]+ \| (\w+) \| ([^|]+)\. \| \[`(\w+/src/(\w+)\.rt)`\]\(\.\./crates/\4\) \|$")
NUMBERS = r"\d+(?:\.\d+)*"
TEXT = re.compile(r"(?m)^ +[A-Z]\w+, (\d+), \"")
LAST_ROW = re.compile(r"const LAST_ROW: usize = (\d+);")


def faults():
    names = VARIANT.findall(NAMES.read_text())
    rows = rule_rows()
    rules = [rule for _, rule, _, _, _ in rows]
    text = PAGE.read_text()
    unread = sum(line.startswith("| ") for line in text.splitlines()) - len(rows) - text.count("| Section |")
    if unread:
        form = "| 3.1 | Title | Rule | What it says. | [`crate/src/file.rt`](../crates/crate/src/file.rt) |"
        yield f"{shown(PAGE)}: {unread} rows are not of the form {form}"
    yield from (f"{shown(PAGE)}: {rule} is no rule of {shown(NAMES)}" for rule in rules if rule not in names)
    yield from (f"{shown(PAGE)}: {rule} has two rows" for rule in sorted(set(rules)) if rules.count(rule) > 1)
    for table in text.split("\n## "):
        yield from out_of_order(ROW.findall(table))
    for row in rows:
        yield from files_of_row(*row)
    yield from files_without_row(names, {file for _, _, _, file, _ in rows})
    yield from last_row()


def rule_rows():
    """The rows of the page: sections, rule, what it says, file, and the file's name."""
    return ROW.findall(PAGE.read_text())


def definition_of(file, name):
    """The file of a rule's definition, from that of its code."""
    return (ROOT / "crates" / file).parent.parent / "specs" / f"{''.join(word.capitalize() for word in name.split('_'))}.antt"


def out_of_order(rows):
    """The rows of a table that stand behind one of a later section. A rule that is not the standard's has no section."""
    rows = [row for row in rows if row[0] != "-"]
    for before, after in zip(rows, rows[1:]):
        if first_section(before) > first_section(after):
            yield f"{shown(PAGE)}: {after[1]} stands behind {before[1]}, whose section is later"


def first_section(row):
    """The numbers of the first section that a row names."""
    return [int(number) for number in re.search(NUMBERS, row[0]).group().split(".")]


def files_of_row(sections, rule, says, file, name):
    """A row's file and its definition are there; both say what the row says, and cite its sections."""
    for source, mark in ((ROOT / "crates" / file, "//!"), (definition_of(file, name), "--")):
        if not source.is_file():
            yield f"{shown(PAGE)}: {rule} has no file {shown(source)}"
            continue
        head = head_of(source.read_text(), mark)
        if not head.startswith(says):
            yield f"{shown(source)}: its head does not begin with '{says}', as the row of {rule} says in {shown(PAGE)}"
        cited = re.findall(NUMBERS, head)
        yield from (
            f"{shown(source)}: its head does not cite section {section}, as the row of {rule} does in {shown(PAGE)}"
            for section in re.findall(NUMBERS, sections)
            if section not in cited
        )


def head_of(text, mark):
    """The comment that a file begins with, as one line."""
    lines = []
    for line in text.splitlines():
        if not line.startswith(mark):
            break
        lines.append(line.removeprefix(mark).strip())
    return " ".join(lines)


def files_without_row(names, listed):
    """A fault for each file that is named for a rule and has no row."""
    own_file = {re.sub(r"(?<!^)(?=[A-Z])", "_", name).lower(): name for name in names}
    for crate in crates():
        for file in [] if crate.name.startswith("tests_") else files_of(crate, "src", ".rt"):
            if file.stem in own_file and str(file.relative_to(ROOT / "crates")) not in listed:
                yield f"{shown(PAGE)}: no row has {own_file[file.stem]}, which {shown(file)} decides"


def last_row():
    """Chains that are too long are listed behind all rules: their row is the one behind the last rule's."""
    last = max(int(row) for row in TEXT.findall(TEXTS.read_text()))
    found = LAST_ROW.search(ORDER.read_text())
    if not found or int(found.group(1)) != last + 1:
        yield f"{shown(ORDER)}: LAST_ROW is not {last + 1}, behind the last row of {shown(TEXTS)}; specs/Order.antt has the same number"
