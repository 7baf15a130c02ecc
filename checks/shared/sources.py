"""The crates and their files, and the functions of a file, as checks look at them; and how a check tells what it found."""
import dataclasses
import pathlib
import re

ROOT = pathlib.Path(__file__).resolve().parent.parent.parent

# Comments, strings and characters: what stands in them is no code.
COMMENT = re.compile(r"//[^\n]*")
RAW_TEXT = re.compile(r'\bb?r(#*)".*?"\1', re.DOTALL)
TEXT = re.compile(r'b?"(?:\\.|[^"\\])*"|b?\'(?:\\[^\n\']+|[^\\\'\n])\'', re.DOTALL)
NO_CODE = re.compile(f"{RAW_TEXT.pattern}|{COMMENT.pattern}|{TEXT.pattern}", re.DOTALL)

# A clause's head, from the end of what stands before its opening brace.
CLAUSE = re.compile(r"\b(?:requires|ensures|ghost)\b[*]?[ \w-]*:?\s*$")


# A crate's line in crates.txt: its name, and what it stands on.
CRATE_LINE = re.compile(r"(?m)^(\w+)(?: staticlib)?:(.*)$")


@dataclasses.dataclass
class Function:
    """A function of a file: its name, the number of its first line, and its body, or None where it has none."""

    name: str
    line: int
    body: str | None


def crates():
    """The folders of all crates, in order."""
    return sorted(folder for folder in (ROOT / "crates").iterdir() if (folder / "src").is_dir())


def stands_on():
    """What each crate stands on by crates.txt, libraries of the toolchain included."""
    return {name: others.split() for name, others in CRATE_LINE.findall((ROOT / "crates.txt").read_text())}


def tell(check, faults):
    """Prints the faults that a check found, a line each, and how many they are. Gives the status that the check ends with."""
    for fault in faults:
        print(f"{check}: {fault}")
    print(f"{check}: {len(faults)} faults")
    return 1 if faults else 0


def files_of(crate, part, suffix):
    """The files of a part of a crate (`src`, `specs`, `proofs`) with this suffix, in order."""
    return sorted((crate / part).rglob(f"*{suffix}"))


def shown(file):
    """A file's path from the top of the repository."""
    return str(file.relative_to(ROOT))


def code_of(text):
    """The text with comments, strings and characters blanked, each line and each place kept."""
    return NO_CODE.sub(lambda found: re.sub(r"[^\n]", " ", found.group()), text)


def functions_of(text):
    """The functions of a file's text."""
    code = code_of(text)
    for head in re.finditer(r"\bfn (\w+)", code):
        line = code.count("\n", 0, head.start()) + 1
        yield Function(head.group(1), line, body_behind(code, head.end()))


def body_behind(code, place):
    """What stands between the braces of a function's body, or None where a `;` ends it; clauses are passed over."""
    begin = place
    while place < len(code):
        if code[place] == ";" and code.count("[", begin, place) == code.count("]", begin, place):
            return None
        if code[place] == "{":
            end = closing_brace(code, place)
            if not CLAUSE.search(code[begin:place]):
                return code[place + 1 : end]
            place = begin = end
        place += 1
    return None


def closing_brace(code, place):
    """The place of the brace that closes the one at `place`."""
    depth = 0
    for found in re.compile(r"[{}]").finditer(code, place):
        depth += 1 if found.group() == "{" else -1
        if depth == 0:
            return found.start()
    return len(code)
