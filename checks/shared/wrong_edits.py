"""Wrong bodies: edits of a crate's sources, each of which the prover must refuse."""
import dataclasses
import re

from shared.sources import ROOT, files_of

EDITS = ROOT / "wrong-bodies"
FUNCTION = re.compile(r"\bfn (\w+)")
IMPL = re.compile(r"^(?:unsafe )?impl\b(.*)", re.M)
# What stands between a function's cycle of calls and its `fn`: other attributes, and who sees it.
CYCLE = re.compile(r"#\[cycle\((\w+)\)\]\s*(?:#\[[^\n]*\]\s*)*(?:pub(?:\(\w+\))? )?\Z")


@dataclasses.dataclass(frozen=True)
class Site:
    """A function that an edit changes: its name, what `rt check --only` calls it, and its cycle of calls, if it is in one."""

    name: str
    path: str
    module: str
    cycle: str | None


class Edit:
    """An edit as its file has it: the pairs of an old text and a new one, each in a file of the crate."""

    def __init__(self, path):
        self.path, self.crate, self.name = path, path.parent.name, path.stem
        self.pairs = []
        for field, _, value in (line.partition(": ") for line in path.read_text().splitlines()):
            if field == "file":
                file = value
            elif field == "old":
                old = value
            elif field.startswith("new"):
                self.pairs.append((file, old, value))

    def applied(self, texts):
        """The texts with this edit made in them, or why it does not fit: each old text must stand once."""
        texts = dict(texts)
        for file, old, new in self.pairs:
            if file not in texts:
                return None, f"there is no file crates/{self.crate}/{file}"
            count = texts[file].count(old)
            if count != 1:
                return None, f"its old text stands {count} times in crates/{self.crate}/{file}"
            texts[file] = texts[file].replace(old, new)
        return texts, None

    def sites(self, texts):
        """The functions that it changes in these texts, as far as they can be told from the text alone."""
        found = []
        for file, old, new in self.pairs:
            site = site_at(file, texts[file], texts[file].index(old) + len(old))
            if site and site not in found:
                found.append(site)
            texts = {**texts, file: texts[file].replace(old, new)}
        return found


def site_at(file, text, position):
    """The function whose head stands last before a position."""
    heads = list(FUNCTION.finditer(text, 0, position))
    if not heads:
        return None
    head = heads[-1]
    module = file.removeprefix("src/").removesuffix(".rt").replace("/", "::")
    indented = text[text.rfind("\n", 0, head.start()) + 1 : head.start()].startswith(" ")
    impls = list(IMPL.finditer(text, 0, head.start()))
    owner = owner_of(impls[-1][1]) if indented and impls else module
    cycle = CYCLE.search(text, 0, head.start())
    return Site(head[1], f"{owner}::{head[1]}", module, f"{module}::{cycle[1]}" if cycle else None)


def owner_of(head):
    """What `rt check` calls the owner of an impl's functions: the type's name, and behind it the trait's where there is one."""
    head = re.sub(r"^\s*<[^{]*?>\s+(?=[A-Z&\[(])", " ", head.partition("{")[0].partition(" where ")[0])
    trait, _, owner = head.rpartition(" for ")
    words = re.findall(r"[A-Z]\w*", re.sub(r"<.*", "", owner))[:1] + re.findall(r"[A-Z]\w*", trait)
    return "".join(words)


def texts_of(folder):
    """The sources of a crate, by their path in it."""
    return {str(file.relative_to(folder)): file.read_text() for file in files_of(folder, "src", ".rt")}


def known_crates():
    return sorted(folder.name for folder in EDITS.iterdir() if folder.is_dir())


def edits_of(crate):
    return [Edit(path) for path in sorted((EDITS / crate).glob("*.edit"))]
