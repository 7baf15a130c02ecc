"""The definitions of all crates, and what each name in a definition or a clause stands for."""
from shared.antt import File, unmarked, words_of
from shared.scopes import Scope, closer, first
from shared.sources import ROOT

# Names that the language has by itself, and some of the Prelude that stand for constructors.
BUILT_IN = {"⊥", "absurd", "¬", "¬◌", "×", "Unit", "tt", "Dec", "yes", "no", "refl", "ℓ", "Prim", "package", "result"}
BUILT_IN |= {"cc", "omega", "search", "grind", "rw", "simp", "assumption", "hlevel"}
MATCHED = {"true", "false", "zero", "suc", "[]", "∷", "None", "Some", "Ok", "Err", "pos", "negsuc", "inl", "inr", "tt", "refl", "yes", "no", "Less", "Equal",
           "Greater", "Continue", "Break", "alloc_error"}


class Definitions:
    """All files of definitions of all crates, and what their names stand for."""

    def __init__(self, root=ROOT):
        self.root = root
        self.files, self.module_files = {}, {}
        self.crates = [folder.name for folder in sorted((root / "crates").iterdir()) if (folder / "src").is_dir()]
        for crate in self.crates:
            folder = root / "crates" / crate / "specs"
            for path in sorted(folder.rglob("*.antt")) if folder.is_dir() else []:
                module = module_of(path.relative_to(folder))
                self.module_files[crate, module] = path
                self.files[path] = read_file(path)
                self.files[path].crate, self.files[path].module = crate, module
        self.names = {}
        for path, file in self.files.items():
            for number, made in enumerate(file.definitions):
                for name in [*made.names, *made.constructors]:
                    self.names.setdefault((file.crate, file.module, name), (path, number))
        self.cache = {}

    def found(self, path):
        """What a path stands for: ("definition", file, number), ("module", crate, module), ("made", path), ("kit", path), or None."""
        if path not in self.cache:
            self.cache[path] = None
            self.cache[path] = self.find(path)
        return self.cache[path]

    def find(self, path):
        parts = path.split(".")
        if parts[0] == "package":
            parts = parts[1:]
        if parts[0] != "Rattle" or len(parts) < 3 or parts[1] not in self.crates:
            return ("kit", path)
        crate, rest = parts[1], parts[2:]
        if rest[0] in ("proofs",):
            return ("proof", path)
        if len(rest) == 1:
            return ("module", crate, "")
        if rest[1] in ("declared", "contracts"):
            return ("made", crate, tuple(rest[1:]))
        return self.below(crate, "", rest[1:], path)

    def below(self, crate, module, rest, path):
        """What a path from a module on stands for."""
        if not rest:
            return ("module", crate, module)
        name = rest[0]
        owner = self.names.get((crate, module, name))
        if owner and len(rest) == 1:
            return ("definition", *owner)
        if name in ("declared", "contracts") and not module:
            return ("made", crate, tuple(rest))
        inner = f"{module}.{name}" if module else name
        if (crate, inner) in self.module_files:
            return self.below(crate, inner, rest[1:], path)
        file = self.files.get(self.module_files.get((crate, module)))
        for line in file.imports if file else []:
            if "pub" in line.marks:
                for target, known in brought(line):
                    if known == name:
                        return self.found(".".join([target, *rest[1:]]))
        if owner and rest[1:]:
            return ("definition", *owner)
        return None


def read_file(path):
    try:
        return File(path.read_text())
    except ValueError as why:
        raise SystemExit(f"{path}: {why}") from why


def module_of(relative):
    """The name of a module by its file's path in specs/."""
    parts = list(relative.with_suffix("").parts)
    if parts[-1] == "Lib":
        parts.pop()
    return ".".join(parts)


def brought(line):
    """What a line of import brings: each path, and the name that it has here."""
    if line.items is None:
        return [(line.path, line.alias or line.path.rpartition(".")[2])]
    return [(f"{line.path}.{name}", alias) for name, alias in line.items]


class Names:
    """The names that lines of import bring to a text: what each stands for, operators by their parts too."""

    def __init__(self, definitions, lines, own=None):
        self.definitions = definitions
        self.paths, self.operators = {}, {}
        for line in lines:
            for path, name in brought(line):
                self.paths.setdefault(name, []).append(path)
                self.note(name)
        for name in own or {}:
            self.note(name)
        self.own = own or {}

    def note(self, name):
        if "◌" in name:
            for part in filter(None, name.split("◌")):
                self.operators.setdefault(part, set()).add(name)

    def is_constructor(self, name):
        """Whether a name in a pattern is one that is matched."""
        if name in MATCHED or name in self.operators:
            return True
        if name in self.own:
            return self.own[name]
        for path in self.paths.get(name, []):
            found = self.definitions.found(path)
            last = path.rpartition(".")[2]
            if found and found[0] == "definition":
                return last in self.definitions.files[found[1]].definitions[found[2]].constructors
            if found and found[0] == "made":
                return "TheVariants" in path or "TheOpen" in path
            return ".TheVariants." in path
        return False

    def resolved(self, word):
        """What a word stands for: the paths of definitions, or None where its first part is no name that is known here."""
        if word.kind == "quote":
            return []
        head, rest = word.parts[0], word.parts[1:]
        if head == "Rattle" or head == "package":
            return [self.longest(list(word.parts))]
        found = []
        if head == "do":
            head = ">>="
        for name in sorted({head} | self.operators.get(head, set())):
            if name in self.own and not (rest and name in self.paths):
                found.append(("own", name))
            for path in self.paths.get(name, []):
                found.append(self.longest([*path.split("."), *rest], len(path.split("."))))
        return found or None

    def longest(self, parts, least=1):
        """What the longest beginning of a path stands for that stands for something: behind it are fields."""
        for count in range(len(parts), 0, -1):
            found = self.definitions.found(".".join(parts[:count]))
            if found is not None:
                return (*found, ) if count >= least else None
        return None


class Uses:
    """What each definition of a file says, as what its names stand for."""

    def __init__(self, definitions, path):
        file = definitions.files[path]
        own = {}
        for made in file.definitions:
            for name in made.names:
                own[name] = False
        for made in file.definitions:
            for name in made.constructors:
                own[name] = True
        self.file, self.names = file, Names(definitions, file.imports, own)
        self.unknown = []

    def words(self, made):
        """The words of a definition that are names from outside, with what each stands for."""
        scope = Scope(self.names.is_constructor)
        bound = set()
        for block in made.blocks:
            bound |= telescopes(scope, block.words, bound)
        self.read(scope, made, bound)
        for word in scope.free:
            found = self.names.resolved(word)
            if found is None and word.parts[0] not in BUILT_IN:
                self.unknown.append(word)
            yield word, found or []

    def read(self, scope, made, bound):
        if made.kind == "mutual":
            for member in made.members:
                self.read(scope, member, bound)
            return
        for number, (start, end) in enumerate(made.entries):
            words = unmarked(words_of(self.file.text[start:end], start))[1]
            if number == 0 and made.kind in ("data", "record"):
                self.read_type(scope, made, words, bound)
            elif number == 0:
                colon = first(words, 0, ":")
                scope.term(words[colon + 1 :], bound)
            elif words[0].text == "unfolding":
                scope.term(words[1:], bound)
            else:
                scope.clause(words, made.names, bound)

    def read_type(self, scope, made, words, bound):
        """The head of a type, and then its constructors or its fields one after the other, each at its line."""
        where = next((place for place, word in enumerate(words) if word.text == "where"), len(words))
        colon = first(words, 1, ":")
        bound = set(bound) | telescopes(scope, words[1:colon], bound)
        scope.term(words[colon + 1 : where], bound)
        rest = words[where + 1 :]
        while rest:
            column = self.column(rest[0])
            stop = next((place for place in range(1, len(rest)) if self.column(rest[place]) <= column and self.is_first(rest[place])), len(rest))
            line = [word for word in rest[:stop]]
            while line and line[0].text in ("pub",):
                line.pop(0)
            colon = first(line, 0, ":")
            scope.term(line[colon + 1 :], bound)
            if made.kind == "record":
                bound |= {word.text for word in line[:colon]}
            rest = rest[stop:]

    def column(self, word):
        return word.start - self.file.text.rfind("\n", 0, word.start) - 1

    def is_first(self, word):
        return not self.file.text[self.file.text.rfind("\n", 0, word.start) + 1 : word.start].strip()


def telescopes(scope, words, bound):
    """Reads the parameters of a module or a type. Gives the names that they bind."""
    names, at = set(), 0
    while at < len(words):
        if words[at].text in ("(", "{"):
            stop = closer(words, at)
            names |= scope.group(words, at, stop, bound | names)
            at = stop
        at += 1
    return names
