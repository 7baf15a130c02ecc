"""The book as one page of HTML, which needs no script."""
import collections
import html
import re

from shared import book_plan
from shared.book_content import ANSWER
from shared.book_style import FIRST_PAGE, STYLE
from shared.sources import code_of

# How many laws are named beside a definition.
MOST_LAWS = 6

# How long a schema is, in characters, that stands beside its query.
SHORT_SCHEMA = 160

MARKS = re.compile(r"(?m)^( *)(?:(?:pattern|unfoldable|abbrev|pub) )+(?=\S)")


class Page:
    """The page of a book."""

    def __init__(self, book, notes, tested):
        self.book, self.notes, self.tested = book, notes, tested

    def text(self):
        out = ["<!doctype html><html lang=en><meta charset=utf-8><meta name=viewport content='width=device-width,initial-scale=1'>",
               f"<title>What must be believed</title><style>{STYLE}</style>",
               "<nav class=bar><div><a href=#top>First page</a><a href=#contents>Contents</a><a href=#answer>answer</a><a href=#types>Types</a>"
               "<a href=#index>Index of names</a></div></nav><main id=top>"]
        out += self.first_page()
        out += self.contents()
        for sign, title, depth in self.sections_with_content():
            out += self.section(sign, title, depth)
        out += self.types()
        out += self.index()
        out.append("</main></html>\n")
        return "\n".join(out)

    def sections_with_content(self):
        """The sections that have something below them."""
        book, kept = self.book, []
        sections = book.sections
        for place, (sign, title, depth) in enumerate(sections):
            below = [sign]
            for other, _, deeper in sections[place + 1 :]:
                if deeper <= depth:
                    break
                below.append(other)
            if any(book.files.get(one) or self.notes.get(one) for one in below):
                kept.append((sign, title, depth))
        return kept

    # The first page, the contents.

    def first_page(self):
        book = self.book
        definitions, lines = book.count(book.under_answer)
        files = {node[1] for node in book.under_answer if node[0] == "definition"}
        crates = {book.definitions.files[path].crate for path in files}
        all_definitions, all_lines = book.count(book.all)
        words = book.kit_words(book.under_answer)
        bridge = sum(len(made.names) for file in book.definitions.files.values() if file.module.startswith("bridge") for made in file.definitions)
        return [FIRST_PAGE.format(definitions=f"{definitions:,}", lines=f"{lines:,}", files=len(files), crates=len(crates), words=len(words),
                                  all_definitions=f"{all_definitions:,}", all_lines=f"{all_lines:,}", bridge=f"{bridge:,}",
                                  kit=", ".join(f"<code>{escaped(word)}</code>" for word in words), parts=self.parts_table(), first=self.first_definitions(),
                                  clause=self.call(ANSWER))]

    def first_definitions(self):
        """The definitions to begin with, each with what is said of it."""
        rows = []
        for crate, module, name in book_plan.FIRST:
            found = self.book.definitions.found(f"Rattle.{crate}.specs.{module}.{name}")
            if not found or found[0] != "definition" or (*found, name) not in self.book.anchors:
                raise SystemExit(f"book: {crate}/{module} has no `{name}` any more, with which the first page begins: see FIRST in checks/shared/book_plan.py")
            made = self.book.made(found)
            member = next((member for member in made.members if name in member.names), made)
            said = prose(member.comment or made.comment) or prose(self.book.definitions.files[found[1]].head_comment)
            rows.append(f"<li><a href=#{self.book.anchors[(*found, name)]}><code>{escaped(name)}</code></a>: {inline(lowered(said)).rstrip('.')}")
        return "<ol>" + "".join(rows) + "</ol>"

    def parts_table(self):
        """For each part how many definitions it has, and how many of them are below `answer`."""
        book, rows = self.book, []
        part, totals = None, collections.OrderedDict()
        for sign, title, depth in book.sections:
            if depth == 1:
                part = (sign, title)
                totals[part] = [0, 0, 0]
            for path, numbers in book.files.get(sign, []):
                nodes = {("definition", path, number) for number in numbers}
                totals[part][0] += book.count(nodes)[0]
                below, lines = book.count(nodes & book.under_answer)
                totals[part][1] += below
                totals[part][2] += lines
        for (sign, title), (count, below, lines) in totals.items():
            rows.append(f"<tr><td><a href=#{anchor_of_section(sign)}>{book_plan.shown_sign(sign)}{escaped(title)}</a><td class=n>{count}<td class=n>{below}<td class=n>{lines}</tr>")
        return "<table><tr><th>Part<th>Definitions<th>Below <code>answer</code><th>Their lines</tr>" + "".join(rows) + "</table>"

    def contents(self):
        out, depths = ["<h2 id=contents>Contents</h2><p>Behind each section stands how many definitions it has, and how many of these are below <code>answer</code>.</p><div class=toc>"], 0
        for sign, title, depth in self.sections_with_content():
            while depths < depth:
                out.append("<ul>")
                depths += 1
            while depths > depth:
                out.append("</ul>")
                depths -= 1
            nodes = {("definition", path, number) for path, numbers in self.book.files.get(sign, []) for number in numbers}
            count, below = self.book.count(nodes)[0], self.book.count(nodes & self.book.under_answer)[0]
            counts = f" <span>{count}</span>" + (f" <span class=b>{below}</span>" if below else "") if count else ""
            out.append(f"<li><a href=#{anchor_of_section(sign)}>{book_plan.shown_sign(sign)}{escaped(title)}</a>{counts}")
        return out + ["</ul>" * depths, "</div>"]

    # Sections.

    def section(self, sign, title, depth):
        level = min(depth + 1, 5)
        out = [f"<h{level} id={anchor_of_section(sign)}>{book_plan.shown_sign(sign)}{escaped(title)}</h{level}>"]
        if self.notes.get(sign):
            out.append(f"<details><summary>What is ours here ({len(self.notes[sign])})</summary><ul>" + "".join(f"<li>{note}" for note in self.notes[sign]) + "</ul></details>")
        out += self.calls_of(sign)
        for path, numbers in self.book.files.get(sign, []):
            out += self.file(path, numbers)
        if sign == "laws":
            out += self.laws()
        return out

    def calls_of(self, sign):
        """The public calls of the front crates whose place is this section."""
        out = []
        for crate, nodes in self.book.calls:
            if book_plan.CRATES.get(crate) == sign and any(self.has_clauses(node) for node in nodes):
                calls = "".join(self.call(node) for node in nodes if self.has_clauses(node) and node != ANSWER)
                out.append(f"<details><summary>What the calls of <code>{crate}</code> promise</summary>{calls}</details>")
        return out

    def has_clauses(self, node):
        return bool((node[4] if node[0] == "method" else self.book.item(node)).clauses)

    def call(self, node):
        """A call with its clauses."""
        book = self.book
        item = node[4] if node[0] == "method" else book.item(node)
        module = book.crates.modules[node[1], node[2]]
        lines = [escaped(re.sub(r"\s+", " ", item.head).strip())]
        for clause, text, links in book.clauses(node):
            lines.append(f"  {clause.kind} <i>{escaped(clause.name)}</i> {{ {self.linked(text, clause.start, links).strip()} }}")
        said = documentation(module.source.text, item.start)
        name = f"<p class=name>{escaped(node[3])}</p>" if node[0] == "method" else ""
        return f"<div class=d id={book.anchors[node]}>{name}" + (f"<p>{inline(said)}</p>" if said else "") + f"<pre>{chr(10).join(lines)}</pre></div>"

    def file(self, path, numbers):
        """A file's definitions."""
        file = self.book.definitions.files[path]
        said = prose(file.head_comment)
        out = [f"<h6>{escaped(title_of(file.module))}</h6><p class=path>{file.crate}/specs/{file.module.replace('.', '/')}.antt</p>"]
        if said:
            out.append(f"<p class=lead>{inline(said)}</p>")
        out += self.tested_row(path)
        blocks = []
        for number in numbers:
            made = file.definitions[number]
            same = len(blocks) == len(made.blocks) and all(one is other for one, other in zip(blocks, made.blocks))
            out.append(self.definition(("definition", path, number), made, made.blocks if not same else []))
            blocks = made.blocks
        return out

    def tested_row(self, path):
        """A request that breaks the rule whose definition a file has."""
        row = self.tested.get(path)
        if not row:
            return []
        schema, query = (f"<code>{escaped(text)}</code>" for text in (row.schema, row.query))
        told = " and ".join(f"<code>{escaped(text)}</code>" for text in row.refused)
        if row.is_of_schema:
            return [f"<p class=tested>Tested: the schema {schema} is refused: {told}</p>"]
        if len(row.schema) <= SHORT_SCHEMA:
            return [f"<p class=tested>Tested: against the schema {schema} the query {query} is refused: {told}</p>"]
        return [f"<details class=tested><summary>Tested: the query {query} is refused: {told}</summary>against the schema {schema}</details>"]

    def definition(self, node, made, new_blocks):
        book = self.book
        first = book.anchors[(*node, made.names[0])]
        said = prose(made.comment)
        shown = f"<div class=d id={first}>" if node not in book.under_answer else f"<div class='d a' id={first}>"
        shown += self.user_of(node)
        if said:
            shown += f"<p>{inline(said)}</p>"
        shown += f"<pre>{self.code(node, made, new_blocks)}</pre>"
        for fact, origin in book.examples.get(node, []):
            where = f" (<a href=#{book.anchors[origin]}>{escaped(origin[3])}</a>)" if isinstance(origin, tuple) else ""
            shown += f"<p class=row>Example: <code>{escaped(fact)}</code>{where}</p>"
        laws = book.laws_on.get(node, [])
        if laws:
            named = ", ".join(f"<a href=#{book.anchors[law]}>{escaped(law[3])}</a>" for law in laws[:MOST_LAWS])
            shown += f"<p class=row>Laws: {named}{', ..' if len(laws) > MOST_LAWS else ''}</p>"
        return shown + "</div>"

    def user_of(self, node):
        """The definition or the call that this one is there for: the nearest to a public clause that names it."""
        parent = self.book.parents.get(node)
        while parent and parent[0] == "impl":
            parent = self.book.parents.get(parent)
        if not parent:
            return ""
        name = self.book.made(parent).names[0] if parent[0] == "definition" else parent[3]
        anchor = self.book.anchors.get((*parent, name) if parent[0] == "definition" else parent)
        return f"<p class=up>for <a href=#{anchor}>{escaped(name)}</a></p>" if anchor else ""

    def code(self, node, made, new_blocks):
        """The text of a definition, each name linked to what it stands for; the marks of the language, as `pub`, are left out."""
        book = self.book
        links = [(word.start, word.end, anchor, word.text) for word, anchor in book.links_of(node)]
        own = {book.anchors[(*node, name)] for name in made.names}
        text = book.definitions.files[node[1]].text
        spots = {start: f"<a href=#{anchor}>{escaped(shown)}</a>" for start, end, anchor, shown in links if anchor not in own}
        ends = {start: end for start, end, _, _ in links}
        for member in made.members or [made]:
            begin = text.index(member.names[0], member.start)
            place = f" id={book.anchors[(*node, member.names[0])]}" if made.members and member is not made.members[0] else ""
            spots[begin] = f"<b{place}>{escaped(member.names[0])}</b>"
            ends[begin] = begin + len(member.names[0])
        heads = ""
        for block in new_blocks:
            begin, stop = block.words[0].start, block.words[-1].end
            heads += "<i>given</i> " + re.sub(r"\s+", " ", self.filled(text, begin, stop, spots, ends)) + "\n"
        shown = dedented(self.filled(text, made.line, made.end, spots, ends))
        return heads + MARKS.sub(r"\1", shown)

    def linked(self, text, start, links):
        spots = {word.start: f"<a href=#{anchor}>{escaped(word.text)}</a>" for word, anchor in links}
        return re.sub(r"\s+", " ", self.filled(text, 0, len(text), {at - start: shown for at, shown in spots.items()}, {word.start - start: word.end - start for word, _ in links}))

    @staticmethod
    def filled(text, start, end, spots, ends):
        out, at = [], start
        for place in sorted(place for place in spots if start <= place < end):
            if place >= at:
                out.append(escaped(text[at:place]))
                out.append(spots[place])
                at = ends[place]
        return "".join(out) + escaped(text[at:end])

    def laws(self):
        """What the laws say, crate by crate."""
        out = []
        for crate, nodes in self.book.laws:
            out.append(f"<h6>Laws of <code>{crate}</code></h6>")
            out += [self.call(node) for node in nodes if self.has_clauses(node)]
        return out

    # Types, the index.

    def types(self):
        """The types of the sources that definitions speak of, as contracts see them."""
        book = self.book
        out = ["<h2 id=types>Types</h2>", "<p class=lead>The structs, enums, traits and constants of the sources that definitions and clauses name. A type with a model is "
               "seen as its <code>Value</code>.</p>"]
        for crate in sorted({node[1] for node in book.types}, key=lambda crate: (crate.startswith(("example_", "tests_")), book.rank[crate])):
            out.append(f"<h6>{crate}</h6>")
            out += [self.type(node) for node in book.types if node[1] == crate]
        return out

    def type(self, node):
        book = self.book
        item, module = book.item(node), book.crates.modules[node[1], node[2]]
        text = re.sub(r"(?m)^\s*(?:///|//)[^\n]*\n|^\s*#\[[^\n]*\]\n", "", without_bodies(module.source.text, item))
        if item.kind == "trait":
            text = re.sub(r"(?m)^\s*ghost use [^;]*;\n", "", text)
        if item.kind in ("const", "static") and len(text) > 200:
            text = text.partition("=")[0] + "= ..;"
        model = next((impl for impl in book.graph.impls_by_type.get(node, []) if book.graph.impls[impl][1] == "Model"), None)
        if model:
            text = re.sub(r"\{.*\}", "{ .. }", text, flags=re.DOTALL) + "\n" + "\n".join(
                re.sub(r"\s+", " ", book.crates.modules[model[1], model[2]].source.text[child.start : child.end]) for child in book.graph.impls[model][0].children
                if child.kind == "ghost" and child.name in ("Value", "view"))
        text = re.sub(r"\n\s*\n+", "\n", text.strip())
        text = re.sub(r"(?m)\{\s*\}", "{}", text)
        said = documentation(module.source.text, item.start)
        shown = escaped(text)
        names = {node[3]: book.anchors[node]}
        for name, anchor in self.type_names(node, text):
            names.setdefault(name, anchor)
        if names:
            pattern = re.compile(r"(?<![\w.&])(" + "|".join(map(re.escape, sorted(names, key=len, reverse=True))) + r")(?![\w;])")
            shown = pattern.sub(lambda match: f"<a href=#{names[match[1]]}>{match[1]}</a>" if names[match[1]] != book.anchors[node] else f"<b>{match[1]}</b>", shown)
        under = " a" if node in book.under_answer else ""
        return f"<div class='d{under}' id={book.anchors[node]}>" + (f"<p>{inline(said)}</p>" if said else "") + f"<pre>{shown}</pre></div>"

    def type_names(self, node, text):
        """The names in a type's text that stand for other types of the book, or for definitions that its ghost parts cite."""
        book = self.book
        for other in sorted(book.graph.below(node), key=str):
            if other[0] == "item" and other in book.anchors and re.search(rf"\b{re.escape(other[3])}\b", text):
                yield other[3], book.anchors[other]
            elif other[0] == "definition":
                for name in book.made(other).names:
                    if re.fullmatch(r"\w+", name) and re.search(rf"\b{re.escape(name)}\b", text):
                        yield name, book.anchors[(*other, name)]

    def index(self):
        """All names, in order."""
        entries = []
        for node, anchor in self.book.anchors.items():
            if node[0] == "definition":
                entries.append((node[3], anchor, self.book.definitions.files[node[1]].crate))
            else:
                entries.append((node[3], anchor, node[1]))
        counts = collections.Counter(name for name, _, _ in entries)
        shown = [f"<div><a href=#{anchor}>{escaped(name)}</a>" + (f" <small>{crate}</small>" if counts[name] > 1 else "") + "</div>"
                 for name, anchor, crate in sorted(entries, key=lambda entry: (entry[0].lower(), entry[0], entry[2], entry[1]))]
        return ["<h2 id=index>Index of names</h2><div class=index>", *shown, "</div>"]


def escaped(text):
    return html.escape(text, quote=False)


def anchor_of_section(sign):
    return f"s{sign}" if sign[0].isdigit() else {"B": "grammar"}.get(sign, f"part-{sign}") if sign != "answer" else "answer"


def title_of(module):
    """A module's name in words."""
    words = re.sub(r"(?<!^)(?=[A-Z])", " ", module.rpartition(".")[2]).split()
    return " ".join([words[0], *[word.lower() for word in words[1:]]])


def prose(comment):
    """A comment of a file of definitions as prose."""
    lines = [re.sub(r"^\s*-- ?", "", line) for line in comment.splitlines()]
    text = " ".join(line.strip() for line in lines if not re.fullmatch(r"\s*-*\s*", line))
    return text[:1].upper() + text[1:]


def without_bodies(text, item):
    """An item's text, the bodies of a trait's functions left out."""
    out, at = [], item.start
    for child in item.children:
        if child.kind == "fn" and child.body:
            out.append(text[at : child.body[0] - 1].rstrip() + ";")
            at = child.end
    return "".join(out) + text[at : item.end]


def lowered(said):
    """A sentence as it stands behind a colon: its first word is small, if it is a common word."""
    word = said.split()[0]
    return said[:1].lower() + said[1:] if word[1:].islower() or len(word) == 1 else said


def documentation(text, start):
    """The first paragraph of the documentation above an item."""
    lines = []
    for line in reversed(text[:start].rstrip(" ").splitlines()):
        bare = line.strip()
        if bare.startswith("///"):
            lines.append(bare[3:].strip())
        elif not bare.startswith("#["):
            break
    paragraph = []
    for line in reversed(lines):
        if not line:
            break
        paragraph.append(line)
    return " ".join(paragraph)


def inline(text):
    """A line of Markdown as HTML: code, links."""
    shown = escaped(text)
    shown = re.sub(r"`([^`]+)`", r"<code>\1</code>", shown)
    shown = re.sub(r"\[([^\]]+)\]\([^)]*\)", r"\1", shown)
    return re.sub(r"\[(<code>[^<]*</code>)\]", r"\1", shown)


def dedented(text):
    """A text whose first line's indent is taken off all lines. Only the text's own blanks count, and no marks of HTML begin a line."""
    indent = len(text) - len(text.lstrip(" "))
    return re.sub(rf"(?m)^ {{0,{indent}}}", "", text) if indent else text
