"""How long functions are, how many a crate has, and that their names say something alone."""
import re

from shared.sources import crates, files_of, functions_of, shown

MOST_LINES = 40
MOST_FUNCTIONS = 120
# In the first each of some fifty kinds of nodes has functions of its own, most of them of one to three lines. In the second one rule
# is asked in four ways: by families, by families and object types, by classes, and by pairs.
MOST_IN = {"gql_ast_reader": 220, "gql_rules_merging": 140}
LINES_AN_ARM = 4
SAYS_NOTHING = {"keep", "behind", "settle", "set", "note", "given", "form"}

CONSTANT = re.compile(r"(?m)^[ \t]*(?:const|static) \w+:[^;]*?=(?:\[[^\]]*\]|[^;])*;[ \t]*\n?")
LENGTH_OF_ARRAY = re.compile(r";\s*\w+\]")


def faults():
    for crate in crates():
        count = 0
        for file in files_of(crate, "src", ".rt"):
            for function in functions_of(file.read_text()):
                count += 1
                where = f"{shown(file)}:{function.line}"
                if function.name in SAYS_NOTHING:
                    yield f"{where}: a function named just `{function.name}`, which says nothing alone"
                lines = lines_of(function.body or "")
                if lines > MOST_LINES and not is_table(function.body):
                    yield f"{where}: the body of `{function.name}` has {lines} lines, at most {MOST_LINES}"
        most = MOST_IN.get(crate.name, MOST_FUNCTIONS)
        if count > most:
            yield f"{shown(crate)}: {count} functions, at most {most}"


def lines_of(body):
    """The lines between a body's braces, constants left out."""
    return CONSTANT.sub("", body).strip().count("\n") + 1


def is_table(body):
    """A body that only chooses: a value, with no loop and at most one statement before it; the rows of one macro's call; or one
    `match` of short arms that choose nothing themselves."""
    code = LENGTH_OF_ARRAY.sub("]", CONSTANT.sub("", body)).strip()
    if re.fullmatch(r"\w+! \{[^{].*\}", code, re.DOTALL):
        return not re.search(r"\b(?:for|while|loop|let)\b", code)
    if re.search(r"\b(?:for|while|loop)\b", code):
        return False
    is_dispatch = code.startswith("match ") and not re.search(r"\b(?:if|match)\b", code[5:])
    return code.count(";") <= 1 or (is_dispatch and lines_of(code) <= LINES_AN_ARM * code.count("=>"))
