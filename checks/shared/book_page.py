"""The contents page of the book: how much must be believed, and the files of each section."""
from shared import book_plan
from shared.book_html import prose

HEAD = """# The book

What a reader must believe: the definitions that the public clauses and the laws rest on, in the order of GraphQL October 2021, then JSON,
streams and programs, and laws. [`book.html`](book.html) has them in full: each with its comment, examples and laws, and each name linked to
where it is defined. It is one page with no script; open it from a clone, in any browser. `checks/book` writes both from the
sources, and `checks/book --check` says whether they are fresh.

| | Definitions | Lines | Files | Words of the toolchain's library |
|---|---|---|---|---|
| below the clauses of `answer` alone | {answer} |
| below all public clauses | {public} |
| with the laws | {all} |
| in `specs/bridge/`: not to be believed, they only carry code to meaning | {bridge} |

Below each section stand its files, from `crates/` on: how many definitions a file has, how many of these are below `answer`, and what it says of
itself.
"""


def contents(book):
    graph = book.graph
    public = graph.closure(node for crate in {crate for crate, _ in book.crates.modules} for node in graph.public_nodes(crate) if graph.is_front(crate))
    bridge = [("definition", path, number) for path, file in book.definitions.files.items() if file.module.startswith("bridge") for number in range(len(file.definitions))]
    figures = {"answer": book.under_answer, "public": public, "all": book.all, "bridge": bridge}
    out = [HEAD.format(**{name: row(book, nodes) for name, nodes in figures.items()})]
    for sign, title, depth in book.sections:
        files = book.files.get(sign, [])
        if depth == 1:
            out.append(f"## {book_plan.shown_sign(sign)}{title}\n")
        elif files:
            out.append(f"### {book_plan.shown_sign(sign)}{title}\n")
        out += [line(book, path, numbers) for path, numbers in files]
        if files:
            out.append("")
    return "\n".join(out).rstrip() + "\n"


def row(book, nodes):
    definitions, lines = book.count(nodes)
    files = {node[1] for node in nodes if node[0] == "definition"}
    return f"{definitions:,} | {lines:,} | {len(files)} | {len(book.kit_words(nodes))}"


def line(book, path, numbers):
    file = book.definitions.files[path]
    nodes = {("definition", path, number) for number in numbers}
    name = f"{file.crate}/specs/{file.module.replace('.', '/')}.antt"
    said = prose(file.head_comment or "").partition(". ")[0].rstrip(".")
    below = book.count(nodes & book.under_answer)[0]
    return f"- [`{name}`](../crates/{name}) {book.count(nodes)[0]}" + (f" ({below})" if below else "") + (f": {said}." if said else "")
