"""How the sources spell what they have in common: out of memory, imports, laws, and citations of the GraphQL standard."""
import re

from shared.sources import code_of, crates, files_of, shown

IMPORT = re.compile(r"(?m)^[ \t]*(?:pub(?:\([a-z]+\))? )?use [^;]*;")
FROM_MEMORY = re.compile(r"\bFrom<AllocError> for [^{]*\{")
ALIAS = re.compile(r"\btype Memory = AllocError;")

# What stands before `AllocError` where it is a value.
VALUE = re.compile(r"(?:\bErr\(|\b[a-z_]\w*\(|=>|=|\{|\||\breturn)\s*$")

# A law brought in by its own name.
LAW = re.compile(r"(?m)^[ \t]*use [^;]*\blaws::[^;]*;")

CITATION = re.compile(r"\bGraphQL(?:,|'s)? (?:specification,? )?(?:section|appendix)")


def faults():
    for crate in crates():
        for file in files_of(crate, "src", ".rt"):
            text = file.read_text()
            code = code_of(text)
            for place, fault in [*memory(code), *imports(code), *laws(code), *citations(text)]:
                yield f"{shown(file)}:{text.count(chr(10), 0, place) + 1}: {fault}"


def memory(code):
    """Out of memory has one name in types, `Memory`; as a value it is `Err(AllocError)`."""
    code = IMPORT.sub(blank, ALIAS.sub(blank, FROM_MEMORY.sub(blank, code)))
    code = re.sub(r"\bfn from\([^)]*\)", blank, code)
    for found in re.finditer(r"\bAllocError\b", code):
        if not VALUE.search(code[: found.start()][-80:]):
            yield found.start(), "`AllocError` as a type; it is spelled `Memory`"


def imports(code):
    for found in re.finditer(r"\bsuper::", code):
        yield found.start(), "`super::`; items are imported by `crate::`"


def laws(code):
    for found in LAW.finditer(code):
        yield found.start(), "a law is imported by its own name; import `laws`, and call `laws::name()`"


def citations(text):
    for found in CITATION.finditer(text):
        yield found.start(), "the standard is cited as `GraphQL October 2021, section N`"


def blank(found):
    return re.sub(r"[^\n]", " ", found.group())
