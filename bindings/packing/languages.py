"""The packages for Python, Node and Go, and the page with the engine inside."""

import json
import sys

from . import archives
from .archives import Held, text
from .compiled import BINDINGS, SHARED, VERSION, compile_node, node_headers
from .left import Lacking

sys.path.insert(0, str(BINDINGS / "python"))

import wheel_builder  # noqa: E402

LINKED_GO = """\
package sunwaket

// The library and its header lie beside this file.

// #cgo CFLAGS: -I${SRCDIR}
// #cgo LDFLAGS: ${SRCDIR}/libgql.a
import "C"
"""


def wheel(left, lib, told):
    """The wheel: the package with the shared library, for the systems that the library's symbols allow."""
    content = {name: held.content for name, held in told.items()}
    return wheel_builder.wheel((lib / SHARED).read_bytes(), content)


def npm(left, lib, told):
    """The archive for npm: what package.json lists, as far as it is here, and the module for x86-64 Linux."""
    headers = node_headers()
    if headers is None:
        raise Lacking("Node is not here with its headers, which its module is built with")
    node = BINDINGS / "node"
    compile_node(headers, lib, lib / "sunwaket.node")
    listed = json.loads((node / "package.json").read_text(encoding="utf-8"))
    tree = {name: Held((node / name).read_bytes()) for name in listed["files"] if (node / name).is_file() and not name.endswith(".node")}
    tree["sunwaket.node"] = Held((lib / "sunwaket.node").read_bytes())
    del listed["private"], listed["scripts"]
    listed = {"name": listed.pop("name"), "version": VERSION, "license": "MIT", **listed, "files": [*listed["files"], *told]}
    tree["package.json"] = text(json.dumps(listed, indent=2) + "\n")
    return f"sunwaket-{VERSION}.tgz", archives.tar_gz(archives.below("package", tree | told), left.when)


def playground(told):
    """The page with the engine inside, where bindings/build has made it: one file, with the statement of what was proved at its end."""
    page = BINDINGS / "out" / "playground.html"
    if not page.is_file():
        raise Lacking("bindings/build made no playground.html, for which it wants wasm-opt (Debian's binaryen)")
    return f"sunwaket-{VERSION}-playground.html", page.read_bytes() + b"\n<!--\n" + told["PROVED.txt"].content + b"-->\n"


def go(left, lib, told):
    """The module for Go, which links the static library that it holds."""
    sources = {path.name: Held(path.read_bytes()) for path in sorted((BINDINGS / "go").glob("*")) if not path.name.endswith("_test.go") and path.is_file()}
    held = {"libgql.a": Held((lib / "libgql.a").read_bytes()), "gql.h": Held((BINDINGS / "c" / "gql.h").read_bytes()), "linked.go": text(LINKED_GO)}
    name = f"sunwaket-go-{VERSION}"
    return f"{name}.tar.gz", archives.tar_gz(archives.below(name, sources | held | told), left.when)
