#!/usr/bin/env python3
"""Builds the WebAssembly module from what the gate has left (bindings/build, where Debian's binaryen is), and tries it:

- its allocator and the functions that LLVM calls by name, plain and with sanitizers, and the tests of the C library over that allocator,
  each allocation refused in turn among them;
- over the module the tests of the package for Node, what the module has beside them (memory, depth, a call that fails inside), and the worked
  requests of checks/rows.json and checks/tables/: status and bytes are those of the program;
- the package as npm installs it, where the native library does not fit the system: by `require`, by `import`, and as a browser takes it;
- the playground in Chromium, and in Firefox where that is here.

It says what it skips, and how large the module is."""
import base64
import gzip
import json
import os
import pathlib
import shutil
import subprocess
import sys
import tempfile

import bindings
import rows
import server
import tables
from bindings import BINDINGS, CC, STRICT, compact, expect, failed, passed, skip, try_command
from shared.trying import ROOT

WASM, NODE = BINDINGS / "wasm", BINDINGS / "node"
MODULE = NODE / "sunwaket.wasm"
OVER_MODULE = os.environ | {"SUNWAKET_ENGINE": "wasm"}
NODE_TESTS = ["tests/sunwaket.test.js", "tests/resolvers.test.js", "../wasm/tests/module.test.js"]
SANITIZED = ["-fsanitize=address,undefined", "-fno-sanitize-recover=all"]
AS_MALLOC = [f"-Wl,--wrap={name}" for name in ("malloc", "realloc", "free")]

BOOK = """
const schema = new Schema('type Query { book: Book } type Book { title: String }');
console.log(ENGINE, schema.query('{ book { title } }').executeSync({ book: { title: 'Emma' } }).toString());
"""
BOOK_ANSWER = b'wasm {"data":{"book":{"title":"Emma"}}}\n'
USES = {
    "require": ("one.cjs", "const { Schema, ENGINE } = require('sunwaket');" + BOOK),
    "import": ("one.mjs", "import { Schema, ENGINE } from 'sunwaket';" + BOOK),
    "load": (
        "two.mjs",
        "import { readFileSync } from 'node:fs'; import { load } from 'sunwaket/load';"
        "const { Schema, ENGINE } = await load(readFileSync('node_modules/sunwaket/sunwaket.wasm'));" + BOOK,
    ),
}


def compiled(folder, name, sources, *words):
    """A program in C with no library below it but those that are named."""
    to = folder / name
    made = try_command(f"cc {name}", [CC, *STRICT, *words, *sources, "-o", to])
    return [to] if made.returncode == 0 else None


def run_allocator(folder):
    """The allocator and its neighbours alone, and below the C library."""
    for name in ("heap", "helpers"):
        for kind, words in (("", []), (" with sanitizers", SANITIZED)):
            program = compiled(folder, f"{name}{kind.replace(' ', '_')}", [WASM / "tests" / f"{name}.c"], *words)
            if program:
                try_command(f"{name}{kind}", program)
    library = BINDINGS / "out" / "lib" / "libgql_c.a"
    heap = folder / "as_malloc.o"
    try_command("cc as_malloc", [CC, *STRICT, "-c", WASM / "tests" / "as_malloc.c", "-o", heap])
    tests = {"calls": "heap.c", "steps": "heap.c", "refused_memory": "tests/counted_heap.c", "refused_service": "tests/counted_heap.c"}
    for name, below in tests.items():
        sources = [BINDINGS / "c" / "tests" / f"{name}.c", BINDINGS / "c" / below]
        program = compiled(folder, f"{name}_over_module_heap", [*sources, heap, library], *AS_MALLOC)
        if program:
            try_command(f"{name} over the module's allocator", program)


def run_node():
    try_command("Node over the module", ["node", "--test", *NODE_TESTS], cwd=NODE, env=OVER_MODULE)


def run_cases(cases):
    """What comes of each case, a list of words and an input, over the module: its status, and what is written."""
    given = json.dumps([[words, base64.b64encode(text).decode()] for words, text in cases])
    run = try_command("the worked requests over the module", ["node", NODE / "tests" / "program.js", "cases"], input=given.encode(), env=OVER_MODULE)
    return [(status, base64.b64decode(written)) for status, written in json.loads(run.stdout or b"[]")]


def run_worked():
    """The worked requests, which have the status and the bytes of the program."""
    wanted = []
    for row in json.loads((ROOT / "checks" / "rows.json").read_text(encoding="utf-8")):
        if not rows.words(row).startswith("selftest"):
            wanted.append((row["name"], rows.words(row).split(), rows.input_of(row), row["status"], row["output"].encode()))
    for table in sorted(tables.FOLDER.glob("*.json")):
        for name, request, status, output in tables.rows_of(table):
            wanted.append((name, ["answer"], compact(request).encode(), status, output.encode()))
    found = run_cases([(words, text) for _, words, text, _, _ in wanted])
    wrong = [row[0] for row, told in zip(wanted, found) if told != (row[3], row[4])]
    expect("the worked requests over the module", not wrong and len(found) == len(wanted))
    print(f"wasm: {len(wanted) - len(wrong)} of {len(wanted)} worked requests over the module have the program's status and bytes")
    for name in wrong[:5]:
        print(f"  {name}")


def run_package(folder):
    """The package as it is installed where the native library does not fit, which a file of another system stands for."""
    if shutil.which("npm") is None:
        skip("the package as npm installs it", "npm is not here")
        return
    quiet = {"cwd": folder, "env": os.environ | {"npm_config_cache": str(folder / "cache"), "npm_config_offline": "true"}}
    # The version stands in one file, and a release puts it into the package.
    source = folder / "source"
    shutil.copytree(NODE, source, ignore=shutil.ignore_patterns("tests"))
    listed = json.loads((NODE / "package.json").read_text(encoding="utf-8"))
    version = (ROOT / "VERSION").read_text(encoding="utf-8").strip()
    (source / "package.json").write_text(json.dumps(listed | {"version": version}), encoding="utf-8")
    packed = try_command("npm pack", ["npm", "pack", "--silent", "--ignore-scripts", source], **quiet)
    archive = packed.stdout.decode().strip()
    (folder / "package.json").write_text('{"name":"user","version":"1.0.0","private":true}', encoding="utf-8")
    words = ["npm", "install", "--silent", "--no-audit", "--no-fund", f"./{archive}"]
    if packed.returncode or try_command("npm install", words, **quiet).returncode:
        return
    installed = folder / "node_modules" / "sunwaket"
    for name, (file, text) in USES.items():
        (folder / file).write_text(text, encoding="utf-8")
    for kind in ("of another system", "that is not there"):
        (installed / "sunwaket.node").unlink(missing_ok=True)
        if kind == "of another system":
            (installed / "sunwaket.node").write_bytes(b"no library for this machine")
        for name, (file, _) in USES.items():
            run = try_command(f"by {name}, with a native library {kind}", ["node", file], cwd=folder)
            expect(f"the answer by {name}, with a native library {kind}", run.stdout == BOOK_ANSWER)
    words = ["node", "-C", "browser", "--input-type=module", "-e", "console.log(import.meta.resolve('sunwaket'))"]
    run = try_command("which file a browser takes", words, cwd=folder)
    expect("the file that a browser takes", run.stdout.endswith(b"/sunwaket/browser.mjs\n"))


def run_in_chromium(name, folder, test):
    """A test in the browser; once more where it failed, since a browser's driver may lose its browser."""
    words = [str(server.DEBIAN_PYTHON), "-B", "-m", "unittest", test]
    how = {"cwd": folder, "env": os.environ | {"PYTHONPATH": str(BINDINGS / "python" / "tests")}}
    if subprocess.run(words, capture_output=True, check=False, **how).returncode:
        try_command(name, words, **how)
    else:
        passed.append(name)


def run_page():
    """The parts of the page that need no page, and the playground in the browsers that are here."""
    tests = BINDINGS / "page" / "tests"
    try_command("the parts of the page", ["node", "--test", tests / "parts.test.js"])
    if server.has(server.BROWSER, ["chromedriver"], ["selenium"]):
        run_in_chromium("the package in Chromium", WASM / "tests", "test_browser")
        run_in_chromium("the playground in Chromium", tests, "test_playground")
    else:
        skip("the package and the playground in Chromium", "there is no Chromium with its driver and Selenium")
    if shutil.which("firefox-esr"):
        try_command("the playground in Firefox", [sys.executable, "-B", tests / "in_firefox.py"])
    else:
        skip("the playground in Firefox", "Debian's firefox-esr is not here")


def tell_sizes():
    """How large the modules and the page are, as they are and compressed."""
    for path in (MODULE, BINDINGS / "out" / "wasm" / "small.wasm", BINDINGS / "out" / "playground.html"):
        raw = path.read_bytes()
        told = {"raw": len(raw), "gzip": len(gzip.compress(raw, 9))}
        if shutil.which("brotli"):
            told["brotli"] = len(subprocess.run(["brotli", "-q", "11", "-c", path], capture_output=True, check=True).stdout)
        print(f"wasm: {path.name} has " + ", ".join(f"{count:,} bytes {kind}" for kind, count in told.items()))


def main():
    sys.dont_write_bytecode = True
    built = subprocess.run([sys.executable, BINDINGS / "build"], capture_output=True, text=True, check=False)
    if built.returncode == bindings.LACKING:
        skip("the module", "there is nothing to build the library from")
        return 0
    if built.returncode:
        print(built.stdout + built.stderr[-3000:])
        print("wasm: bindings/build failed")
        return 1
    if "wasm-opt is not here" in built.stdout or shutil.which("node") is None:
        skip("the module", "wasm-opt (Debian's binaryen) or Node is not here")
        return 0
    with tempfile.TemporaryDirectory() as room:
        folder = pathlib.Path(room)
        run_allocator(folder)
        run_node()
        run_worked()
        run_package(folder)
    run_page()
    tell_sizes()
    print(f"wasm: {len(passed)} passed, {len(failed)} failed")
    return 1 if failed or not passed else 0


if __name__ == "__main__":
    sys.exit(main())
