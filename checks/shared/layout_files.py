"""The form of each file: its length, its first line, what lib.rt holds, and how long the lines of definitions are."""
import re

from shared.sources import code_of, crates, files_of, shown

MOST_LINES = 400
# The prover reads the answers of functions that call one another from one file.
MOST_LINES_OF_A_CYCLE = 510
MOST_BYTES_A_LINE = 160


def faults():
    for crate in crates():
        for part in ("src", "specs", "proofs"):
            for file in files_of(crate, part, ".rt") + files_of(crate, part, ".antt"):
                yield from length(file)
        for file in files_of(crate, "src", ".rt"):
            yield from opening(file)
        for file in files_of(crate, "specs", ".antt"):
            yield from long_lines(file)
        root = crate / "src" / "lib.rt"
        if root.exists():
            yield from root_of_library(root)


def length(file):
    lines = file.read_text().count("\n")
    most = MOST_LINES_OF_A_CYCLE if file.parent.name.startswith("+") else MOST_LINES
    if lines > most:
        yield f"{shown(file)}: {lines} lines, at most {most}"


def opening(file):
    if not file.read_text().startswith("//! "):
        yield f"{shown(file)}:1: the file does not open with a `//!` line that says what it holds"


def long_lines(file):
    for number, line in enumerate(file.read_bytes().split(b"\n"), 1):
        if len(line) > MOST_BYTES_A_LINE:
            yield f"{shown(file)}:{number}: a line of {len(line)} bytes, at most {MOST_BYTES_A_LINE}"


def root_of_library(file):
    found = re.search(r"(?m)^\s*(?:pub )?(fn|struct|enum|trait|impl|const|static|type)\b", code_of(file.read_text()))
    if found:
        yield f"{shown(file)}: holds `{found.group(1)}`, and lib.rt holds documentation, modules and exports alone"
