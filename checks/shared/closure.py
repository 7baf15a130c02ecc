"""The graph of all definitions, types, implementations and functions of the crates, and what is reached from some of them.

A node is ("definition", file, number), ("item", crate, module, name) for a type, a trait, a constant or a function, or
("impl", crate, module, place) for an implementation."""
import collections
import re

from shared.antt import import_of, words_of
from shared.definitions import BUILT_IN, Definitions, Names, Uses
from shared.public import PATH, Crates
from shared.scopes import Scope
from shared.sources import ROOT, code_of

# What users list, besides the JSON crates: the engine, the programs' libraries, what other languages call.
FRONT = {"gql_engine", "gql_cost", "gql_gateway", "gql_checker", "gql_client_schema", "gql_changes", "gql_rounds", "gql_c", "gql_wasm", "gql_syntax_tool"}
FRONT_PREFIXES = ("jb_",)

# What a type may derive, whose contracts stand in no source.
DERIVED = ("PartialEq", "Eq", "Hash", "PartialOrd", "Ord", "Clone", "Debug")

# Programs for readers and tests: all that they say is on their face.
OPEN_PREFIXES = ("example_", "bench_", "tests_")


class Graph:
    """The nodes and edges, made as they are asked."""

    def __init__(self, root=ROOT):
        self.definitions, self.crates = Definitions(root), Crates(root)
        self.uses = {path: Uses(self.definitions, path) for path in self.definitions.files}
        self.kit = collections.defaultdict(set)
        self.edges, self.unknown, self.known_names = {}, [], {}
        self.impls, self.impls_by_type, self.impls_by_trait = {}, collections.defaultdict(list), collections.defaultdict(list)
        for (crate, path), module in self.crates.modules.items():
            for item in module.items:
                if item.kind == "impl":
                    self.note_impl(crate, path, item)

    def note_impl(self, crate, path, item):
        """Notes whose implementation an item is, and of which trait."""
        head = strip_generics(re.sub(r"\s+", " ", code_of(item.head)).partition("impl")[2].partition(" where ")[0])
        trait, _, owner = head.rpartition(" for ")
        node = ("impl", crate, path, item.start)
        trait_name = PATH.search(trait.strip().lstrip("!")) if trait else None
        owner_name = PATH.search(re.sub(r"&\s*(?:'\w+ )?(?:mut )?|\bdyn ", "", owner))
        trait_key = self.crates.resolved(crate, path, trait_name.group()) if trait_name else None
        owner_key = self.crates.resolved(crate, path, owner_name.group()) if owner_name else None
        short = (owner_name.group().rpartition("::")[2] if owner_name else "") + (trait_name.group().rpartition("::")[2] if trait_name else "")
        self.impls[node] = (item, trait_name.group() if trait_name else None, trait_key, owner_key, short)
        self.impls_by_type[owner_key].append(node)
        if trait_key:
            self.impls_by_trait[trait_key].append(node)

    # What a node says.

    def below(self, node):
        """The nodes that a node's text names."""
        if node not in self.edges:
            found = set()
            if node[0] == "definition":
                self.of_definition(node, found)
            elif node[0] == "item":
                self.of_item(node, found)
            else:
                self.of_impl(node, found)
            found.discard(node)
            self.edges[node] = found
        return self.edges[node]

    def of_definition(self, node, found):
        uses = self.uses[node[1]]
        made = uses.file.definitions[node[2]]
        for _, targets in uses.words(made):
            for target in targets:
                if target and target[0] == "own":
                    for number, other in enumerate(uses.file.definitions):
                        if target[1] in other.names or target[1] in other.constructors:
                            found.add(("definition", node[1], number))
                else:
                    self.add(target, found, node)
        self.unknown += [(node[1], uses.file.text.count("\n", 0, word.start) + 1, word.text) for word in uses.unknown]
        uses.unknown = []

    def add(self, target, found, node):
        """Adds what a name stands for."""
        if target is None or target[0] in ("module", "proof"):
            return
        if target[0] == "kit":
            self.kit[node].add(target[1])
        elif target[0] == "definition":
            found.add(target)
        elif target[0] == "made":
            found.update(self.made(target[1], target[2]))

    def made(self, crate, parts):
        """What a generated module's name stands for: the types, implementations and functions of the sources."""
        path, rest = (), list(parts[1:])
        while rest and (crate, (*path, rest[0])) in self.crates.modules:
            path = (*path, rest.pop(0))
        module, found = self.crates.modules[crate, path], set()
        for name in rest:
            name = re.sub(r"^fold-|-F$", "", name)
            if name in module.named:
                found.add(("item", crate, path, name))
            elif not name.startswith("The"):
                found |= {node for node in self.impls if node[1:3] == (crate, path) and self.impls[node][4] == name}
                found |= {("item", crate, path, owner) for owner in module.named if name in {owner + trait for trait in DERIVED}}
        if not found:
            self.unknown.append((f"crates/{crate}", 0, ".".join(parts)))
        return found

    def of_item(self, node, found):
        module = self.crates.modules[node[1], node[2]]
        item = module.named[node[3]]
        model = next((impl for impl in self.impls_by_type.get(node, []) if self.impls[impl][1] == "Model"), None)
        self.rust_names(module, item.head, found)
        if item.kind == "fn":
            self.clauses(module, item, item.clauses, [], found, node)
        elif item.kind == "trait":
            self.members(module, item, found, node)
        elif model:
            self.of_model(model, found, node)
        elif item.kind in ("struct", "enum", "union") and item.body:
            self.rust_names(module, module.source.code[slice(*item.body)], found)
            self.members(module, item, found, node)

    def of_model(self, node, found, user):
        """What contracts see of a type with a model: its value, and how it is made of the fields."""
        item = self.impls[node][0]
        module = self.crates.modules[node[1], node[2]]
        imports = [child for child in item.children if child.kind == "ghost use"]
        for child in item.children:
            if child.kind == "ghost" and child.name in ("Value", "view"):
                self.text(module, imports, *child.body, set(), found, user)

    def of_impl(self, node, found):
        item, trait, trait_key, owner, _ = self.impls[node]
        module = self.crates.modules[node[1], node[2]]
        if trait == "Model":
            self.of_model(node, found, node)
            return
        for key in (trait_key, owner):
            if key and key[0] == "item":
                found.add(key)
        self.members(module, item, found, node)

    def members(self, module, item, found, node):
        """The ghost members and the clauses of what stands between an item's braces; of a type's own functions the public ones."""
        imports = [child for child in item.children if child.kind == "ghost use"]
        generics = names_in(item.head)
        for child in item.children:
            if child.kind == "ghost":
                self.text(module, imports, *child.body, generics, found, node)
            elif child.kind == "fn" and (child.is_public or item.kind == "trait" or " for " in item.head):
                self.rust_names(module, child.head, found)
                self.clauses(module, child, child.clauses, imports, found, node, generics)

    def clauses(self, module, item, clauses, imports, found, node, generics=frozenset()):
        bound = names_in(item.head) | set(generics) | {clause.name for clause in clauses if clause.kind == "ghost"}
        for clause in clauses:
            self.text(module, imports, clause.start, clause.end, bound, found, node)

    def text(self, module, imports, start, end, bound, found, node):
        """Adds what a clause or a ghost member names."""
        names = self.names_of(module, imports)
        scope = Scope(names.is_constructor)
        text = module.source.text[start:end].lstrip("=: ")
        scope.term(words_of(text, start), set())
        for word in scope.free:
            targets = names.resolved(word)
            for target in targets or []:
                self.add(target, found, node)
            if word.kind == "quote":
                self.quoted(module, word.text, found)
            elif not targets:
                known = self.crates.resolved(module.crate, module.path, word.parts[0])
                if known and known[0] == "item":
                    found.add(known)
                elif word.parts[0] not in bound and word.parts[0] not in BUILT_IN and not self.is_local(module, word.parts[0]):
                    self.unknown.append((module.source.path, module.source.text.count("\n", 0, start) + 1, word.text))

    def is_local(self, module, name):
        """Whether a name is one of the sources' own: a field, a variant, a ghost member or a type of std."""
        return bool(re.search(rf"\b{re.escape(name)}\b", module.source.code)) or name in ("usize", "u64", "u32", "u8", "Self")

    def names_of(self, module, imports):
        key = (module.source.path, tuple(item.start for item in imports))
        if key not in self.known_names:
            top = [item for item in module.source.items if item.kind == "ghost use"] + [item for item in module.items if item.kind == "ghost use"]
            lines = [import_of(item.head, item.start) for item in [*top, *imports]]
            unique = {line.start: line for line in lines}
            self.known_names[key] = Names(self.definitions, unique.values())
        return self.known_names[key]

    def quoted(self, module, text, found):
        """Adds the type and the trait of a quote, and the implementation."""
        keys = {self.crates.resolved(module.crate, module.path, path) for path in PATH.findall(text)}
        keys = {key for key in keys if key and key[0] == "item"}
        found |= keys
        trait = re.search(r" as (?:\w+::)*(\w+)", text)
        for key in keys:
            found |= {node for node in self.impls_by_type.get(key, []) if trait and (self.impls[node][1] or "").rpartition("::")[2] == trait[1]}

    def rust_names(self, module, text, found):
        for path in PATH.findall(code_of(text)):
            known = self.crates.resolved(module.crate, module.path, path)
            if known and known[0] == "item" and self.crates.modules[known[1], known[2]].named[known[3]].kind != "fn":
                found.add(known)

    # Roots and closures.

    def closure(self, roots):
        """All nodes that are reached from some, themselves included."""
        found, left = set(), list(roots)
        while left:
            node = left.pop()
            if node not in found:
                found.add(node)
                left += self.below(node)
        return found

    def public_nodes(self, crate):
        """What the public items of a crate are, with the implementations of its types and of its traits."""
        nodes = set()
        items = {("item", *key) for key in self.crates.public_items(crate)}
        for node in items:
            nodes.add(node)
            nodes |= set(self.impls_by_type.get(node, []))
            nodes |= {impl for impl in self.impls_by_trait.get(node, []) if self.impls[impl][3] is None or self.impls[impl][3] in items}
        return nodes

    def laws(self, crate):
        """The public functions of a crate's modules of laws, those that these pass on too, or of all its modules where the crate is
        one of laws."""
        nodes = set()
        for owner, path in self.crates.modules:
            if owner == crate and (crate.endswith("_laws") or any(part == "laws" or part.endswith("_laws") for part in path)):
                nodes |= {("item", *key) for key in self.crates.public_items(owner, path) if self.crates.modules[key[:2]].named[key[2]].kind == "fn"}
        return nodes

    @staticmethod
    def is_front(crate):
        """Whether users list a crate."""
        return crate in FRONT or crate.startswith(FRONT_PREFIXES)

    def roots(self):
        nodes = set()
        for crate in sorted({crate for crate, _ in self.crates.modules}):
            if self.is_front(crate):
                nodes |= self.public_nodes(crate)
            nodes |= self.laws(crate)
            if crate.startswith(OPEN_PREFIXES):
                nodes |= {("definition", path, number) for path, file in self.definitions.files.items() if file.crate == crate
                          for number in range(len(file.definitions))}
        return nodes


def strip_generics(text):
    """What stands behind the parameters of an `impl`."""
    text = text.strip()
    if not text.startswith("<"):
        return text
    depth = 0
    for place, character in enumerate(text):
        if character == "<":
            depth += 1
        elif character == ">" and text[place - 1] not in "-=":
            depth -= 1
            if depth == 0:
                return text[place + 1 :].strip()
    return text


def names_in(head):
    return set(re.findall(r"[A-Za-z_]\w*", code_of(head)))
