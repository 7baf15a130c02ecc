"""The crates as a user of them sees them: what each name of a module stands for, and which items are public."""
import re

from shared.items import Source, uses_of
from shared.sources import ROOT, code_of

PATH = re.compile(r"(?:[A-Za-z_]\w*::)*[A-Za-z_]\w*")


class Module:
    """A module of a crate: its items by name, its imports, and the file that it stands in."""

    def __init__(self, crate, path, source, items):
        self.crate, self.path, self.source = crate, path, source
        self.items = [item for item in items]
        self.named = {}
        self.uses, self.public_uses, self.globs = {}, {}, []
        for item in items:
            if item.kind in ("struct", "enum", "union", "trait", "type", "const", "static", "fn"):
                self.named.setdefault(item.name, item)
            elif item.kind == "use":
                for target, name in uses_of(code_of(item.head)):
                    if name == "*":
                        self.globs.append((target.removesuffix("::*"), item.is_public))
                    else:
                        self.uses[name] = target
                        if item.is_public:
                            self.public_uses[name] = target


class Crates:
    """All sources of all crates."""

    def __init__(self, root=ROOT):
        self.root, self.modules, self.sources = root, {}, {}
        for folder in sorted((root / "crates").iterdir()):
            for path in sorted((folder / "src").rglob("*.rt")) if (folder / "src").is_dir() else []:
                source = Source(path.read_text())
                source.path, source.crate = path, folder.name
                self.sources[path] = source
                self.add(folder.name, rust_module(path.relative_to(folder / "src")), source, source.items)
        self.crates = {crate for crate, _ in self.modules}

    def add(self, crate, path, source, items):
        if (crate, path) in self.modules:
            path = (*path, "main")
        module = self.modules[crate, path] = Module(crate, path, source, items)
        for item in items:
            if item.kind == "mod" and item.children:
                self.add(crate, (*path, item.name), source, item.children)
        return module

    def resolved(self, crate, path, name, seen=frozenset()):
        """What a Rust path stands for in a module: ("item", crate, module, name) or ("module", crate, module), or None."""
        parts = name.split("::")
        module = self.modules.get((crate, path))
        key = (crate, path, name)
        if not module or key in seen:
            return None
        seen = seen | {key}
        head, rest = parts[0], parts[1:]
        if head == "crate":
            return self.step(crate, (), rest, seen)
        if head in ("self", "super"):
            return self.step(crate, path if head == "self" else path[:-1], rest, seen)
        if head in module.named:
            return ("item", crate, path, head) if not rest else ("item", crate, path, head)
        if (crate, (*path, head)) in self.modules:
            return self.step(crate, (*path, head), rest, seen)
        if head in module.uses:
            return self.resolved_use(crate, path, "::".join([module.uses[head], *rest]), seen)
        if head in self.crates and head != crate:
            return self.step(head, (), rest, seen)
        for target, _ in module.globs:
            found = self.resolved_use(crate, path, "::".join([target, *parts]), seen)
            if found:
                return found
        return None

    def resolved_use(self, crate, path, target, seen):
        head = target.split("::")[0]
        if head in self.crates and head != crate and (crate, (head,)) not in self.modules:
            return self.step(head, (), target.split("::")[1:], seen)
        return self.resolved(crate, path if head in ("self", "super", "crate") or head in self.modules[crate, path].named or (crate, (*path, head)) in self.modules else path, target, seen)

    def step(self, crate, path, rest, seen):
        if not rest:
            return ("module", crate, path)
        return self.resolved(crate, path, "::".join(rest), seen)

    def public_items(self, crate, path=()):
        """The public items of a module: those of it, those of its public modules, and those that it passes on."""
        found, left, seen = set(), [(crate, path)], set()
        while left:
            key = left.pop()
            if key in seen or key not in self.modules:
                continue
            seen.add(key)
            module = self.modules[key]
            for item in module.items:
                if item.kind == "mod" and item.is_public:
                    left.append((key[0], (*key[1], item.name)))
                elif item.is_public and item.name and item.kind in ("struct", "enum", "union", "trait", "type", "const", "static", "fn"):
                    found.add((*key, item.name))
            targets = list(module.public_uses.values()) + [target for target, public in module.globs if public]
            for target in targets:
                result = self.resolved_use(*key, target, frozenset())
                if result and result[0] == "item":
                    found.add(result[1:])
                elif result and result[0] == "module":
                    left.append(result[1:])
        for key, module in self.modules.items():
            if key[0] == crate and not path:
                for item in module.items:
                    if item.kind == "fn" and "no_mangle" in item.attributes:
                        found.add((*key, item.name))
        return found


def rust_module(relative):
    parts = list(relative.with_suffix("").parts)
    if parts[-1] in ("lib", "main", "mod"):
        parts.pop()
    return tuple(parts)
