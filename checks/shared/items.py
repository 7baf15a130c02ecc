"""The items of a source file: its imports, its types, traits, implementations and functions, each with its clauses and ghost members."""
import dataclasses
import re

from shared.sources import closing_brace, code_of

CLAUSE = re.compile(r"\b(requires|ensures|ghost)\b([*]?)([ \w-]*):?\s*$")
HEAD = re.compile(
    r"(?P<public>pub(?:\([^)]*\))?\s+)?(?:(?P<use>(?:ghost\s+)?use)\s|(?P<mod>mod)\s+(?P<mod_name>\w+)\s*[;{]|"
    r"(?:(?:const|unsafe|extern\s+|final|safe)\s+)*fn\s+(?P<fn>\w+)|(?P<type>struct|enum|union|trait)\s+(?P<type_name>\w+)|"
    r"(?P<impl>(?:unsafe\s+)?impl)\b|(?P<alias>type|const|static)\s+(?:mut\s+)?(?P<alias_name>\w+)|ghost\s+(?P<ghost>\w+)|"
    r"(?P<macro>\w+!)\s*(?P<macro_name>\w*))"
)
USE = re.compile(r"\s*(?:,\s*)?([\w:*]*?)(?:::)?\{")


@dataclasses.dataclass(eq=False)
class Item:
    """An item: what it is, its name, whether others see it, its attributes, its head and its body's places in the text."""

    kind: str
    name: str
    is_public: bool
    attributes: str
    start: int
    end: int
    head: str
    body: tuple | None = None
    clauses: list = dataclasses.field(default_factory=list)
    children: list = dataclasses.field(default_factory=list)


@dataclasses.dataclass
class Clause:
    kind: str
    name: str
    start: int
    end: int


class Source:
    """A source file: its text, the same with comments and strings blanked, and its items."""

    def __init__(self, text):
        self.text = text
        self.code = code_of(text)
        self.items = self.read(0, len(text))

    def read(self, start, end):
        items, at = [], start
        attributes = ""
        while at < end:
            blank = re.compile(r"[\s,;]*").match(self.code, at, end).end()
            if blank >= end:
                break
            if self.code[blank] == "#":
                bracket = self.code.index("[", blank)
                stop = closing(self.code, bracket)
                attributes += self.text[blank:stop]
                at = stop
                continue
            match = HEAD.match(self.code, blank, end)
            if not match:
                at = self.skip(blank, end)
                continue
            item, at = self.item(match, end, attributes)
            attributes = ""
            if "cfg(test)" not in item.attributes and "#[test]" not in item.attributes:
                items.append(item)
        return items

    def skip(self, at, end):
        """Passes over what is no item, as a variant or a field: to the next comma or semicolon outside brackets."""
        depth = 0
        while at < end:
            character = self.code[at]
            if character in "([{<":
                depth += 1
            elif character in ")]}>" and not (character == ">" and self.code[at - 1] in "-="):
                depth -= 1
            elif character in ",;" and depth <= 0:
                return at + 1
            at += 1
        return end

    def item(self, match, end, attributes):
        """An item whose head was found, and the place behind it."""
        public = (match["public"] or "").strip() == "pub"
        if match["fn"]:
            return self.function(match, public, attributes, end)
        if match["use"]:
            stop = self.code.index(";", match.end())
            kind = "ghost use" if match["use"].startswith("ghost") else "use"
            return Item(kind, "", public, attributes, match.start(), stop + 1, self.text[match.start() : stop + 1]), stop + 1
        if match["ghost"]:
            return self.ghost(match, public, attributes, end)
        name = match["mod_name"] or match["type_name"] or match["alias_name"] or match["macro_name"] or ""
        kind = "mod" if match["mod"] else match["type"] or ("impl" if match["impl"] else match["alias"] or "macro")
        since = match.end() - (1 if match["mod"] else 0)
        place = self.first(since, end, ";" if kind in ("type", "const", "static") else ";{")
        if place == end or self.code[place] == ";":
            return Item(kind, name, public, attributes, match.start(), place + 1, self.text[match.start() : place], (match.end(), place)), place + 1
        stop = closing_brace(self.code, place)
        item = Item(kind, name, public, attributes, match.start(), stop + 1, self.text[match.start() : place], (place + 1, stop))
        if kind in ("mod", "impl", "trait", "struct"):
            item.children = self.read(place + 1, stop)
        return item, stop + 1

    def ghost(self, match, public, attributes, end):
        """A ghost member or a ghost field: it reaches to the mark behind its braces."""
        place = self.first(match.end(), end, ";,{")
        if place < end and self.code[place] == "{":
            place = self.first(closing_brace(self.code, place) + 1, end, ";,}")
        return Item("ghost", match["ghost"], public, attributes, match.start(), place + 1, self.text[match.start() : place], (match.end(), place)), place + 1

    def first(self, place, end, marks):
        """The first of some marks that stands in no brackets, or the end."""
        depth = 0
        while place < end:
            character = self.code[place]
            if depth == 0 and character in marks:
                return place
            if character in "([":
                depth += 1
            elif character in ")]":
                depth -= 1
            place += 1
        return end

    def function(self, match, public, attributes, end):
        """A function with its clauses, each of which stands in braces before its body."""
        place = since = match.end()
        depth, clauses, head = 0, [], None
        while place < end:
            character = self.code[place]
            if character in "([":
                depth += 1
            elif character in ")]":
                depth -= 1
            elif character in "{;" and depth == 0:
                head = head or self.head(match.start(), place)
                if character == ";":
                    return Item("fn", match["fn"], public, attributes, match.start(), place + 1, head, None, clauses), place + 1
                stop = closing_brace(self.code, place)
                clause = CLAUSE.search(self.code, since, place)
                if not clause:
                    return Item("fn", match["fn"], public, attributes, match.start(), stop + 1, head, (place + 1, stop), clauses), stop + 1
                clauses.append(Clause(clause[1], clause[3].strip().rstrip(":"), place + 1, stop))
                place = since = stop
            place += 1
        raise ValueError(f"a function with no end: {match['fn']}")

    def head(self, start, place):
        """A function's signature, without what stands before its first clause or body."""
        head = self.code[start:place]
        clause = re.search(r"\b(?:requires|ensures|ghost)\b[*]?[ \w-]*:?\s*$", head)
        return head[: clause.start()] if clause else head


def closing(code, place):
    """Behind the bracket that closes the one at `place`."""
    depth = 0
    for found in re.compile(r"[\[\]]").finditer(code, place):
        depth += 1 if found.group() == "[" else -1
        if depth == 0:
            return found.end()
    return len(code)


def uses_of(text):
    """The paths of a `use`, each with the name that it has here, `*` for all."""
    tree = re.sub(r"\s+", " ", text.strip().rstrip(";"))
    tree = re.sub(r"^(?:pub(?:\([^)]*\))? )?use ", "", tree)
    found = []
    walk_uses("", tree, found)
    return found


def walk_uses(before, tree, found):
    brace = tree.find("{")
    if brace < 0:
        path, _, alias = tree.strip().partition(" as ")
        path = (before + path.strip()).removesuffix("::self")
        if path:
            found.append((path, alias.strip() or path.rpartition("::")[2]))
        return
    depth, since, inner = 0, brace + 1, tree[: tree.rfind("}")]
    for at in range(brace + 1, len(inner) + 1):
        character = inner[at] if at < len(inner) else ","
        if character == "{":
            depth += 1
        elif character == "}":
            depth -= 1
        elif character == "," and depth == 0:
            if inner[since:at].strip():
                walk_uses(before + tree[:brace].strip(), inner[since:at].strip(), found)
            since = at + 1
