"""What the book has: the definitions that public clauses rest on, by sections; calls and laws with their clauses; types; examples."""
import collections
import re

from shared import book_plan
from shared.antt import File, words_of
from shared.closure import Graph
from shared.definitions import Names
from shared.scopes import Scope
from shared.sources import ROOT

ANSWER = ("item", "gql_engine", ("answering",), "answer")
SHOWN_TYPES = ("struct", "enum", "union", "trait", "type", "const", "static")


class Book:
    """All that is told. Places are anchors by node."""

    def __init__(self, root=ROOT):
        self.root, self.graph = root, Graph(root)
        self.definitions, self.crates = self.graph.definitions, self.graph.crates
        roots = self.graph.roots()
        self.all = self.graph.closure(roots)
        self.under_answer = self.graph.closure([ANSWER])
        self.parents = self.first_users(roots)
        self.sections = book_plan.sections()
        self.rank = {crate: place for place, crate in enumerate(re.findall(r"(?m)^(\w+)(?: staticlib)?:", (root / "crates.txt").read_text()))}
        self.files = collections.defaultdict(list)
        for path, file in self.definitions.files.items():
            numbers = [number for number in range(len(file.definitions)) if ("definition", path, number) in self.all]
            if numbers and file.module.partition(".")[0] != "formers":
                comment = file.head_comment or next((made.comment for made in file.definitions), "")
                self.files[book_plan.place_of(file.crate, file.module, comment)].append((path, numbers))
        for sign in self.files:
            self.files[sign] = self.ordered(self.files[sign])
        self.calls, self.laws = self.calls_of_crates(), self.laws_of_crates()
        self.types = sorted(node for node in self.all if node[0] == "item" and self.item(node).kind in SHOWN_TYPES)
        self.anchors = self.named()
        self.examples, self.laws_on = self.examples_by_definition(), self.laws_by_definition()

    # Order.

    def ordered(self, files):
        """Files in the order in which they build on each other; apart from that, by crate and name."""
        paths = {path: numbers for path, numbers in files}
        done, order = set(), []

        def visit(path):
            if path in done:
                return
            done.add(path)
            below = {node[1] for number in paths[path] for node in self.graph.below(("definition", path, number)) if node[0] == "definition"}
            for other in sorted(below & set(paths)):
                visit(other)
            order.append(path)

        for path in sorted(paths, key=lambda path: (self.rank[self.definitions.files[path].crate], path)):
            visit(path)
        return [(path, paths[path]) for path in order]

    def first_users(self, roots):
        """For each node the one that names it first: on the way from `answer`, else from another public clause, else from a law."""
        laws = {node for crate in self.crates.crates for node in self.graph.laws(crate)}
        parents, seen = {}, set()
        for stage in ([ANSWER], sorted(roots - laws, key=str), sorted(roots, key=str)):
            left = collections.deque(node for node in stage if node not in seen)
            seen.update(left)
            while left:
                node = left.popleft()
                for other in sorted(self.graph.below(node) - seen, key=str):
                    seen.add(other)
                    parents[other] = node
                    left.append(other)
        return parents

    # Names.

    def item(self, node):
        return self.crates.modules[node[1], node[2]].named[node[3]]

    def made(self, node):
        return self.definitions.files[node[1]].definitions[node[2]]

    def named(self):
        """An anchor for each name of a definition, for each type and each call: its name alone where that is one thing's."""
        names = collections.defaultdict(list)
        for path, file in self.definitions.files.items():
            for number, made in enumerate(file.definitions):
                if ("definition", path, number) in self.all:
                    for name in made.names:
                        names[name].append((("definition", path, number, name), file.crate, file.module))
        for node in self.types + [node for _, nodes in self.calls + self.laws for node in nodes]:
            names[self.item_name(node)].append((node, node[1], ".".join(node[2])))
        anchors = {}
        for name, owners in names.items():
            crates = collections.Counter(crate for _, crate, _ in owners)
            for node, crate, module in owners:
                anchor = name if len(owners) == 1 else f"{name}.{crate}" if crates[crate] == 1 else f"{name}.{crate}.{module}"
                anchor = re.sub(r"[^\w.◌≡≢+*<>=&|\-]", "_", anchor).replace(">", "gt").replace("<", "lt").replace("=", "eq").replace("&", "and")
                anchors[node] = anchor
        return self.distinct(anchors)

    @staticmethod
    def distinct(anchors):
        seen = set()
        for node, anchor in anchors.items():
            number = 2
            while anchor in seen:
                anchor = f"{anchors[node]}.{number}"
                number += 1
            seen.add(anchor)
            anchors[node] = anchor
        return anchors

    def item_name(self, node):
        return node[3] if node[0] == "item" else f"{node[3]}"

    def anchor(self, target, name):
        """The anchor of what a name stands for, or None."""
        if target[0] == "definition":
            made = self.definitions.files[target[1]].definitions[target[2]]
            own = name if name in made.names else made.names[0]
            for member in made.members:
                if name in member.constructors:
                    own = member.names[0]
            return self.anchors.get((*target, own))
        return self.anchors.get(target)

    # Calls and laws.

    def calls_of_crates(self):
        """For each front crate its own public functions, those of its types too."""
        found = []
        for crate in sorted({crate for crate, _ in self.crates.modules}):
            if self.graph.is_front(crate):
                nodes, laws = [], self.graph.laws(crate)
                public = {("item", *key) for key in self.crates.public_items(crate) if key[0] == crate}
                page = next(source.text for source in self.crates.sources.values() if source.crate == crate and source.path.stem in ("lib", "main"))
                for node in sorted(public, key=lambda node: (page.find(node[3]) % len(page), str(node))):
                    if self.item(node).kind == "fn" and node not in laws:
                        nodes.append(node)
                    for impl in self.graph.impls_by_type.get(node, []):
                        item, trait = self.graph.impls[impl][:2]
                        nodes += [("method", impl[1], impl[2], f"{node[3]}::{child.name}", child, impl) for child in item.children
                                  if child.kind == "fn" and child.is_public and trait is None]
                found.append((crate, nodes))
        return found

    def laws_of_crates(self):
        found = []
        for crate in sorted({crate for crate, _ in self.crates.modules}):
            own = (node for node in self.graph.laws(crate) if node[1] == crate)
            nodes = sorted(own, key=lambda node: (node[2], self.item(node).start))
            if nodes:
                found.append((crate, nodes))
        return found

    def clauses(self, node):
        """The clauses of a call: each with its kind, its name, its text, and the words in it that stand for something known."""
        module = self.crates.modules[node[1], node[2]]
        item = node[4] if node[0] == "method" else self.item(node)
        imports = [child for child in self.graph.impls[node[5]][0].children if child.kind == "ghost use"] if node[0] == "method" else []
        names = self.graph.names_of(module, imports)
        for clause in item.clauses:
            yield clause, module.source.text[clause.start : clause.end], self.linked(names, module, clause.start, clause.end)

    def linked(self, names, module, start, end):
        """The words of a part of a source that stand for definitions or types, with their anchors."""
        scope = Scope(names.is_constructor)
        scope.term(words_of(module.source.text[start:end], start), set())
        found = []
        for word in scope.free:
            anchor = next(filter(None, (self.anchor_of(target, word) for target in names.resolved(word) or [])), None)
            if anchor:
                found.append((word, anchor))
        return found

    def anchor_of(self, target, word):
        if target is None or target[0] in ("kit", "module", "proof"):
            return None
        name = word.parts[-1]
        if target[0] == "made":
            return next(filter(None, (self.anchors.get(node) for node in sorted(self.graph.made(target[1], target[2]), key=str))), None)
        return next(filter(None, (self.anchor(target, part) for part in reversed(word.parts))), None)

    def links_of(self, node):
        """The words of a definition that stand for others, with their anchors."""
        uses, made, found = self.graph.uses[node[1]], self.made(node), []
        for word, targets in uses.words(made):
            for target in targets:
                if target and target[0] == "own":
                    number = next(number for number, other in enumerate(uses.file.definitions) if target[1] in other.names or target[1] in other.constructors)
                    target = ("definition", node[1], number)
                anchor = self.anchor_of(target, word) if target else None
                if anchor:
                    found.append((word, anchor))
                    break
        return found

    # Examples and laws.

    def examples_by_definition(self):
        """For each definition the facts without variables that are proved by computing with it: of laws, and of lemmas by `refl`."""
        rows = collections.defaultdict(list)
        for _, nodes in self.laws:
            for node in nodes:
                for clause, text, links in self.clauses(node):
                    if links and is_closed(text):
                        head = next((target for target in self.heads(node, clause)), None)
                        if head:
                            rows[head].append((re.sub(r"\s+", " ", text.strip()), node))
        for path in sorted((self.root / "crates").glob("*/proofs/**/*.antt")):
            text = path.read_text()
            if "= refl" in text:
                self.lemma_rows(File(text), path, rows)
        return rows

    def heads(self, node, clause):
        """The definitions that a clause names, in order."""
        module = self.crates.modules[node[1], node[2]]
        names = self.graph.names_of(module, [])
        for word in words_of(module.source.text[clause.start : clause.end], clause.start):
            for target in (names.resolved(word) or []) if word.kind == "name" else []:
                if target and target[0] == "definition" and target in self.all:
                    yield target

    def lemma_rows(self, file, path, rows):
        names = Names(self.definitions, file.imports)
        for made in file.definitions:
            texts = [file.text[start:end] for start, end in made.entries]
            if made.kind == "function" and not made.blocks and len(texts) > 1 and re.search(r"=\s*refl$", texts[-1]) and is_closed(texts[0]) and "≡" in texts[0]:
                fact = re.sub(r"\s+", " ", texts[0].partition(" : ")[2])
                words = [word for word in words_of(fact) if word.kind == "name"]
                heads = [target for word in words for target in names.resolved(word) or [] if target and target[0] == "definition" and target in self.all]
                if heads:
                    rows[heads[0]].append((fact, path))

    def laws_by_definition(self):
        """For each definition the laws whose clauses name it."""
        found = collections.defaultdict(list)
        for _, nodes in self.laws:
            for node in nodes:
                for target in sorted({target for clause in self.item(node).clauses for target in self.heads(node, clause)}, key=str):
                    found[target].append(node)
        return found

    # Numbers.

    def count(self, nodes):
        """How many definitions some nodes are, and how many lines these take."""
        made = [self.made(node) for node in nodes if node[0] == "definition"]
        return sum(len(one.names) for one in made), sum(one.text.count("\n") + 1 for one in made)

    def kit_words(self, nodes):
        """The names of the toolchain's libraries that definitions and clauses among nodes cite."""
        return sorted({path.rpartition(".")[2] for node in nodes for path in self.graph.kit.get(node, ())})


def is_closed(text):
    """Whether a fact speaks of no variable."""
    return "→" not in text and "λ" not in text and not re.search(r"\bresult\b|\(\w+ :", text)
