"""Files of definitions as checks look at them: their lines of import, their definitions, and the words that stand in each."""
import dataclasses
import re

# A comment, a text, a name or a mark of its own. A name is a run of anything but blanks and the marks.
WORD = re.compile(
    r'(?P<comment>(?<![^\s(){}.;,])--[^\n]*|\{-.*?-\}|//[^\n]*)|(?P<text>"(?:\\.|[^"\\\n])*")|(?P<quote>⟦.*?⟧)'
    r'|(?P<name>(?:«[^»]*»|[^\s(){}.;,@"«»⟦⟧])+)|(?P<mark>[(){}.;,@])',
    re.DOTALL,
)
NUMERAL = re.compile(r"[0-9][0-9_]*|0[xob][0-9a-fA-F_]+")
IMPORT = re.compile(r"^(?P<marks>(?:unfoldable |pub |ghost )*)use (?P<path>[^\s{}]+?)(?:\.\{(?P<items>[^}]*)\})?(?: as (?P<alias>\S+?))?;?\s*$", re.DOTALL)
MARKS = {"pattern", "unfoldable", "abbrev", "pub", "axiom", "mutual", "data", "record"}
OPENERS, CLOSERS = {"(": ")", "{": "}", "[": "]"}, {")", "}", "]"}


@dataclasses.dataclass(frozen=True)
class Word:
    """A word of a text, and where it begins. One of several names with dots between is one word of these parts."""

    text: str
    start: int
    parts: tuple = ()
    kind: str = "mark"

    @property
    def end(self):
        return self.start + len(self.text)


@dataclasses.dataclass
class Import:
    """A line of import: what it stands on, the names that it brings with those that they have here, or the name of the module."""

    start: int
    end: int
    marks: str
    path: str
    items: list | None
    alias: str | None


@dataclasses.dataclass
class Block:
    """A `module _` and the words of what all its definitions take."""

    head: str
    words: list


@dataclasses.dataclass
class Definition:
    """A definition, or a block of those that are made of one another, its `members`: its names, its marks, the modules that it stands
    in, and the places of its signature and its clauses. It begins at `top` with the comment above it, and at `line` without."""

    names: list
    kind: str
    start: int
    end: int
    blocks: list
    marks: list
    entries: list = dataclasses.field(default_factory=list)
    members: list = dataclasses.field(default_factory=list)
    constructors: list = dataclasses.field(default_factory=list)
    fields: list = dataclasses.field(default_factory=list)
    top: int = 0
    line: int = 0
    comment: str = ""
    text: str = ""

    @property
    def is_public(self):
        return "pub" in self.marks or any(member.is_public for member in self.members)


def words_of(text, start=0):
    """The words of a text, comments left out; names with dots between, and no blank, are one word."""
    words, found = [], [match for match in WORD.finditer(text) if match.lastgroup != "comment"]
    at = 0
    while at < len(found):
        match = found[at]
        if match.lastgroup == "name":
            parts, end = [match.group()], match.end()
            while at + 2 < len(found) and found[at + 1].group() == "." and found[at + 1].start() == end and found[at + 2].lastgroup == "name" \
                    and found[at + 2].start() == end + 1:
                parts.append(found[at + 2].group())
                end = found[at + 2].end()
                at += 2
            words.append(Word(text[match.start() : end], start + match.start(), tuple(parts), "name"))
        else:
            words.append(Word(match.group(), start + match.start(), (), match.lastgroup))
        at += 1
    return words


def import_of(text, start):
    """The import that a text is, or None."""
    match = IMPORT.match(text)
    if not match:
        return None
    items = None
    if match["items"] is not None:
        items = []
        for item in filter(None, (item.strip() for item in match["items"].split(","))):
            name, _, alias = item.partition(" as ")
            items.append((name.strip(), (alias or name.rpartition(".")[2]).strip()))
    return Import(start, start + len(match.group().rstrip()), match["marks"], match["path"].rstrip("."), items, match["alias"])


def entries_of(text, start, end, indent):
    """The entries of a part of a text: each line of this indent, with the lines of more indent below it. Gives each entry's place."""
    at, entries = start, []
    while at < end:
        stop = text.find("\n", at, end)
        stop = end if stop < 0 else stop + 1
        line = text[at:stop]
        bare = line.lstrip(" ")
        if bare.strip() and not (len(line) - len(bare) > indent and entries):
            entries.append([at, stop])
        elif bare.strip() and entries:
            entries[-1][1] = stop
        at = stop
    return [(begin, stop) for begin, stop in entries]


class File:
    """A file of definitions: its imports, its modules and its definitions, in order."""

    def __init__(self, text):
        self.text = text
        self.imports, self.modules, self.definitions, self.fixities = [], [], [], []
        self.read(0, len(text), 0, [])
        self.place_comments()

    def read(self, start, end, indent, blocks):
        """Reads the entries between two places."""
        for begin, stop in entries_of(self.text, start, end, indent):
            entry = self.text[begin:stop]
            bare = entry.strip()
            if bare.startswith("--"):
                continue
            first = bare.split(None, 2)
            if re.match(r"(?:unfoldable |pub )*use ", bare):
                self.imports.append(import_of(bare, begin) or fail(self, begin, "an import of another form"))
            elif re.match(r"(?:pub )?mod ", bare):
                self.modules.append(bare.split()[-1])
            elif first[0] in ("infixl", "infixr", "infix"):
                self.fixities.append((begin, stop, bare))
            elif first[0] == "module":
                self.read_block(begin, stop, blocks)
            elif first[0] == "ruleset":
                continue
            elif first[0] in ("open", "axiom"):
                fail(self, begin, f"a form that is not known: {first[0]}")
            else:
                self.read_entry(begin, stop, blocks)

    def read_block(self, begin, stop, blocks):
        head = re.compile(r"\bwhere\b[^\n]*\n").search(self.text, begin, stop)
        words = words_of(self.text[begin : head.start()], begin)
        inner = re.compile(r"(?m)^( +)\S").search(self.text, head.end(), stop)
        block = Block(self.text[begin : head.end()], words[2:])
        self.read(head.end(), stop, len(inner.group(1)), [*blocks, block])

    def read_entry(self, begin, stop, blocks):
        """Reads a signature with its marks, a line below one, a type or a block of definitions."""
        end = begin + len(self.text[begin:stop].rstrip("\n"))
        marks, words = unmarked(words_of(self.text[begin:end], begin))
        if "mutual" in marks:
            self.add_mutual(begin, stop, blocks, marks)
        elif words[0].text != "unfolding" and ("data" in marks or "record" in marks or is_signature(words)):
            kind = "data" if "data" in marks else "record" if "record" in marks else "function"
            made = Definition([words[0].text], kind, begin, end, blocks, marks, [(begin, end)])
            self.name_parts(made, begin, stop)
            self.definitions.append(made)
        else:
            self.definitions[-1].end = end
            self.definitions[-1].entries.append((begin, end))

    def name_parts(self, made, begin, stop):
        """Notes the constructors of a `data` or the fields of a record."""
        if made.kind == "function":
            return
        head = re.compile(r"\bwhere\b[^\n]*\n").search(self.text, begin, stop)
        if not head:
            return
        inner = re.compile(r"(?m)^( +)\S").search(self.text, head.end(), stop)
        names = made.constructors if made.kind == "data" else made.fields
        for at, end in entries_of(self.text, head.end(), stop, len(inner.group(1))) if inner else []:
            words = words_of(self.text[at:end], at)
            while words and words[0].text == "pub":
                words.pop(0)
            for word in words:
                if word.text == ":":
                    break
                names.append(word.text)

    def add_mutual(self, begin, stop, blocks, marks):
        """A block of definitions that are made of one another is one definition of several names."""
        first = self.text.find("\n", begin) + 1
        inner = re.compile(r"(?m)^( +)\S").search(self.text, first, stop)
        known, self.definitions = self.definitions, []
        self.read(first, stop, len(inner.group(1)), blocks)
        members, self.definitions = self.definitions, known
        made = Definition([name for member in members for name in member.names], "mutual", begin, begin + len(self.text[begin:stop].rstrip("\n")), blocks, marks)
        made.members = members
        made.constructors = [name for member in members for name in member.constructors]
        made.fields = [name for member in members for name in member.fields]
        self.definitions.append(made)

    def place_comments(self):
        """Gives each definition its text, and the comment that stands right above it."""
        for made in [inner for made in self.definitions for inner in [made, *made.members]]:
            made.line = made.top = self.text.rfind("\n", 0, made.start) + 1
            while made.top > 0:
                above = self.text.rfind("\n", 0, made.top - 1) + 1
                if not self.text[above : made.top - 1].lstrip().startswith("--"):
                    break
                made.top = above
            made.comment = self.text[made.top : made.line]
            made.text = self.text[made.line : made.end]

    @property
    def head_comment(self):
        """The comment with which the file begins."""
        match = re.match(r"(?:--[^\n]*\n)+", self.text)
        return match.group() if match else ""


def unmarked(words):
    """The marks with which words begin, and the other words."""
    count = next((place for place, word in enumerate(words) if word.text not in MARKS), len(words))
    return [word.text for word in words[:count]], words[count:]


def is_signature(words):
    """Whether words behind marks are a name and its type: a colon comes before any equals sign that stands in no brackets."""
    depth = 0
    for word in words:
        if word.text in OPENERS:
            depth += 1
        elif word.text in CLOSERS:
            depth -= 1
        elif depth == 0 and word.text in (":", "="):
            return word.text == ":"
    return False


def fail(file, place, what):
    raise ValueError(f"line {file.text.count(chr(10), 0, place) + 1}: {what}")
