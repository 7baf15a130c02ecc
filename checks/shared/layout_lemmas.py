"""What proofs have in common: no file stands in two crates, and something cites each lemma."""
import collections
import re

from shared.sources import crates, files_of, shown

# A file this short may be alike by chance.
FEWEST_LINES = 12

# The head of a lemma or a definition, at the left margin or in a `module _`.
HEAD = re.compile(r"( {0,2})(?:(?:pub|abbrev|unfoldable) )*([^\s(){}:=,]+) :(?= |$)")
NAME = re.compile(r'[^\s(){},;."]+')

# The prover asks for the files of these names by itself.
ASKED_FOR = {"Answers", "Invariants", "Measures", "Lib"}


def faults():
    yield from twins()
    yield from uncited()


def twins():
    """The files that stand in two crates, alike but for the crates' names."""
    known = {}
    for crate in crates():
        for part, suffix in (("src", ".rt"), ("specs", ".antt"), ("proofs", ".antt")):
            for file in files_of(crate, part, suffix):
                text = file.read_text()
                if text.count("\n") < FEWEST_LINES or file.stem in ASKED_FOR:
                    continue
                first = known.setdefault(re.sub(rf"\b{crate.name}\b", "crate", text), file)
                if first != file:
                    yield f"{shown(file)}: as in {shown(first)}; let one crate take it from the other"


def uncited():
    """The lemmas and definitions in `proofs/` that nothing cites."""
    texts = [(file, file.read_text()) for crate in crates() for file in every_file(crate)]
    names = {file: collections.Counter(NAME.findall(text)) for file, text in texts}
    citing = collections.defaultdict(set)
    for file, text in texts:
        for module in re.findall(r"\bproofs(?:\.|::)(\w+)", text):
            citing[module].add(file)
    for file, text in texts:
        if file.parent.name != "proofs" or file.stem in ASKED_FOR:
            continue
        for name, line, own in lemmas(text.split("\n")):
            elsewhere = any(is_named(name, names[other]) for other in citing[file.stem] - {file})
            if names[file][name] <= own and not elsewhere:
                yield f"{shown(file)}:{line}: nothing cites `{name}`"


def every_file(crate):
    return files_of(crate, "src", ".rt") + files_of(crate, "specs", ".antt") + files_of(crate, "proofs", ".antt")


def is_named(name, names):
    """Whether a file that has these names cites the lemma: in an attribute of Rust each dash is an underscore."""
    return name in names or any(found.endswith(f"::{name.replace('-', '_')}") for found in names)


def lemmas(lines):
    """Each lemma that a file has once: its name, the number of its first line, and how often its own lines name it."""
    heads = [(number, found) for number, found in enumerate(map(HEAD.match, lines)) if found]
    times = collections.Counter(found.group(2) for _, found in heads)
    for number, found in heads:
        margin, name = found.groups()
        if times[name] == 1 and (not margin or in_module(lines, number)):
            own = own_lines(lines, number, len(margin), name)
            yield name, number + 1, sum(NAME.findall(line).count(name) for line in own)


def in_module(lines, number):
    """Whether what stands at two spaces here belongs to a `module _`, and not to a record or a `where`."""
    outer = next(line for line in reversed(lines[:number]) if line and line[0] != " ")
    return re.match(r"(?:pub )?module ", outer) is not None


def own_lines(lines, number, margin, name):
    """The lines of a lemma: its head, what is indented below it, and its equations."""
    yield lines[number]
    for line in lines[number + 1 :]:
        indent = len(line) - len(line.lstrip(" "))
        if line and indent <= margin and not re.match(rf" {{{margin}}}(?:{re.escape(name)}(?: |$)|unfolding |[\])}}])", line):
            return
        yield line
