#!/usr/bin/env python3
"""Builds the C library and the bindings from what the gate has left, and runs their tests: bindings/build, then

- the calls in C, plain, under valgrind, and with AddressSanitizer; with each allocation refused in turn, alone and with all after it;
  values that eight threads share and handles that go from one to another, also under helgrind; the examples;
- the package for Python: its tests, from its folder and from the wheel; the wheel's mock server, asked one query;
- the package for Node, and the one for Go; the code on docs/BINDINGS.md;
- the worked requests of checks/tables/ and examples/ through C, through Python and through resolvers in Python, whose bytes are those
  of the program.

It says what it skips: all, where no gate has left the libraries; a language or a tool that is not here."""
import json
import os
import pathlib
import re
import shutil
import subprocess
import sys
import tempfile
import urllib.request
import zipfile

from shared.trying import ROOT

BINDINGS = ROOT / "bindings"
LACKING = 3
PATIENCE = 1800
PYTHON_TESTS = ["tests.test_sunwaket", "tests.test_resolvers", "tests.test_rounds"]
CC = os.environ.get("CC", "cc")
STRICT = ["-std=c11", "-O1", "-g", "-Wall", "-Wextra", "-Werror"]
HELGRIND = ["valgrind", "--quiet", "--tool=helgrind", "--error-exitcode=9"]
VALGRIND = ["valgrind", "--quiet", "--error-exitcode=9", "--leak-check=full", "--show-leak-kinds=all", "--errors-for-leak-kinds=all"]

# What is told is told by the name of the check that runs: checks/wasm.py takes calls from here.
NAME = pathlib.Path(sys.argv[0]).stem

passed, failed = [], []


def try_command(name, words, **how):
    """Runs a command, which passes where its status is 0; what one that fails says is shown."""
    run = subprocess.run([str(word) for word in words], capture_output=True, timeout=PATIENCE, check=False, **how)
    if run.returncode == 0:
        passed.append(name)
    else:
        failed.append(name)
        print(f"{NAME}: {name}: status {run.returncode}\n{(run.stdout + run.stderr).decode(errors='replace')[-3000:]}")
    return run


def skip(what, why):
    print(f"{NAME}: skipped {what}: {why}")


# ---- C


def compile_c(folder, name, sources, *words):
    """A program over the library."""
    lib = BINDINGS / "out" / "lib"
    to = folder / name
    sources = [BINDINGS / "c" / source for source in sources]
    made = try_command(f"cc {name}", [CC, *STRICT, *words, *sources, lib / "libgql_c.a", "-lpthread", "-o", to])
    return to if made.returncode == 0 else None


def run_c(folder):
    """The tests in C, each plain and with AddressSanitizer, and under valgrind those that count no blocks themselves."""
    programs = {
        "calls": ["tests/calls.c", "heap.c"],
        "steps": ["tests/steps.c", "heap.c"],
        "refused_memory": ["tests/refused_memory.c", "tests/counted_heap.c"],
        "refused_service": ["tests/refused_service.c", "tests/counted_heap.c"],
        "threads": ["tests/threads.c", "heap.c"],
    }
    has_valgrind = shutil.which("valgrind") is not None
    if not has_valgrind:
        skip("the tests in C under valgrind", "it is not here")
    for name, sources in programs.items():
        program = compile_c(folder, name, sources)
        if program is not None:
            print(try_command(name, [program]).stdout.decode(), end="")
            if has_valgrind and "tests/counted_heap.c" not in sources:
                try_command(f"{name} under valgrind", [*VALGRIND, program])
            if has_valgrind and name == "threads":
                try_command(f"{name} under helgrind", [*HELGRIND, program])
        watched = compile_c(folder, f"{name}_asan", sources, "-fsanitize=address")
        if watched is not None:
            try_command(f"{name} with AddressSanitizer", [watched])


def run_examples(folder):
    """The examples over the shared library, by its file for pkg-config if that command is here."""
    out = BINDINGS / "out"
    words = ["-I", out / "include", "-L", out / "lib", "-lgql"]
    if shutil.which("pkg-config") is None:
        skip("the file for pkg-config", "that command is not here")
    else:
        asked = subprocess.run(
            ["pkg-config", "--cflags", "--libs", "gql"],
            capture_output=True,
            text=True,
            check=False,
            env=os.environ | {"PKG_CONFIG_PATH": str(out / "lib" / "pkgconfig")},
        )
        words = asked.stdout.split()
    for name in ("example", "example_steps"):
        made = try_command(f"cc {name}", [CC, *STRICT, BINDINGS / "c" / f"{name}.c", *words, "-o", folder / name])
        if made.returncode == 0:
            run = try_command(name, [folder / name], env=os.environ | {"LD_LIBRARY_PATH": str(out / "lib")})
            expect(f"the answer of {name}", run.stdout == b'{"data":{"book":{"title":"Emma","year":1815}}}\n')


def expect(name, holds):
    (passed if holds else failed).append(name)
    if not holds:
        print(f"{NAME}: {name} is another")


# ---- Python, Node, Go


def run_python(folder):
    """The tests of the package, from its folder and from the wheel, and the wheel's mock server."""
    python = BINDINGS / "python"
    quiet = os.environ | {"PYTHONDONTWRITEBYTECODE": "1"}
    try_command("Python", [sys.executable, "-m", "unittest", "-q", *PYTHON_TESTS], cwd=python, env=quiet)
    told = try_command("the library's version", [sys.executable, "-c", "import sunwaket; print(sunwaket.VERSION)"], cwd=python, env=quiet).stdout.decode()
    expect("the library's version, which is that of VERSION,", told == (ROOT / "VERSION").read_text(encoding="utf-8"))
    wheels = sorted((BINDINGS / "out").glob("*.whl"))
    expect("one wheel", len(wheels) == 1)
    words, alone = installed(folder, wheels[0])
    if words is not None:
        shutil.copytree(python / "tests", folder / "tests")
        try_command("Python, from the wheel", [*words, "-m", "unittest", "-q", *PYTHON_TESTS], cwd=folder, env=alone)
        run_mock_server(folder, words, alone)


def installed(folder, wheel):
    """A Python, as words of a command, and variables with which it has the wheel's package and nothing else of the repository: the wheel is
    installed into a fresh virtual environment, and unpacked where Python makes none here. `None` twice where it is not installed."""
    quiet = {name: value for name, value in os.environ.items() if name != "PYTHONPATH"} | {"PYTHONDONTWRITEBYTECODE": "1"}
    fresh, unpacked = folder / "fresh", folder / "unpacked"
    made = subprocess.run([sys.executable, "-m", "venv", fresh], capture_output=True, env=quiet, timeout=PATIENCE, check=False)
    if made.returncode:
        skip("the install of the wheel", "Python makes no virtual environment here; the wheel is unpacked")
        with zipfile.ZipFile(wheel) as held:
            held.extractall(unpacked)
        return [sys.executable], quiet | {"PYTHONPATH": str(unpacked)}
    words = [fresh / "bin" / "python"]
    pip = [*words, "-m", "pip", "install", "--quiet", "--no-index", "--disable-pip-version-check", wheel]
    if try_command("pip install the wheel", pip, env=quiet).returncode:
        return None, None
    return words, quiet


def run_mock_server(folder, words, env):
    """The mock server of the wheel: it says where it is, answers one query, refuses one that costs too much, and ends."""
    (folder / "schema.graphql").write_text("type Query { book: Book books: [Book!]! } type Book { title: String }", encoding="utf-8")
    (folder / "data.json").write_text('{"book":{"title":"Emma"}}', encoding="utf-8")
    words = [*words, "-m", "sunwaket.mock", "schema.graphql", "data.json", "--port", "0", "--cost", "10:9"]
    with subprocess.Popen(words, cwd=folder, env=env, text=True, stdout=subprocess.PIPE, stderr=subprocess.DEVNULL) as server:
        address = server.stdout.readline().strip()
        try:
            expect("the answer of the wheel's mock server", asked(address, "{ book { title } }") == {"data": {"book": {"title": "Emma"}}})
            refusal = {"errors": [{"message": "cost above limit"}]}
            expect("the refusal of the wheel's mock server", asked(address, "{ books { title } }") == refusal)
        finally:
            server.terminate()
    expect("the end of the wheel's mock server", server.returncode == 0)


def asked(address, query):
    """What a mock server answers to a query; None where there is no server."""
    body = json.dumps({"query": query}).encode()
    request = urllib.request.Request(address + "graphql", body, {"Content-Type": "application/json"})
    try:
        with urllib.request.urlopen(request, timeout=60) as answer:
            return json.loads(answer.read())
    except (OSError, ValueError) as error:
        print(f"bindings: the mock server at {address!r}: {error}")
        return None


def run_page():
    """The code for Python and for Node on docs/BINDINGS.md, which prints what its section says."""
    page = (ROOT / "docs" / "BINDINGS.md").read_text(encoding="utf-8")
    runners = {"python": (sys.executable, "-c", BINDINGS / "python")}
    if (BINDINGS / "node" / "sunwaket.node").is_file():
        runners["js"] = ("node", "-e", BINDINGS / "node")
    for section in page.split("\n## "):
        printed = re.search(r"Each of these prints `(.*)`", section)
        for language, code in re.findall(r"```(python|js)\n(.*?)```", section, re.DOTALL):
            if printed and language in runners:
                *words, folder = runners[language]
                run = try_command(f"the page's {language}", [*words, code], cwd=folder)
                expect(f"what the page's {language} prints", run.stdout.decode() == printed[1] + "\n")


def run_node():
    node = BINDINGS / "node"
    if not (node / "sunwaket.node").is_file():
        skip("the package for Node", "Node is not here with its headers")
        return
    words = ["node", "--test", "tests/sunwaket.test.js", "tests/resolvers.test.js", "tests/http.test.js"]
    try_command("Node", words, cwd=node, env=os.environ | {"SUNWAKET_ENGINE": "native"})


def run_go():
    if shutil.which("go") is None:
        skip("the package for Go", "Go is not here")
        return
    out = BINDINGS / "out"
    told = {
        "CGO_CFLAGS": f"-I{out / 'include'}",
        "CGO_LDFLAGS": str(out / "lib" / "libgql.a"),
        "GOFLAGS": "-mod=mod",
        "GOPROXY": "off",
    }
    try_command("Go", ["go", "test", "-count=1", "./..."], cwd=BINDINGS / "go", env=os.environ | told)


# ---- the worked requests


def worked_requests():
    """A name, a word, a request and what the program writes, for each row of checks/tables/ and each file of examples/."""
    import tables

    for table in sorted(tables.FOLDER.glob("*.json")):
        for name, request, _, output in tables.rows_of(table):
            yield name, "answer", request, output.encode("utf-8")
    for word in ("answer", "check"):
        for path in sorted((ROOT / "examples").glob(f"*.{word}")):
            request = json.loads(path.with_suffix(".json").read_text(encoding="utf-8"))
            yield f"examples: {path.name}", word, request, path.read_bytes()


def compact(value):
    return json.dumps(value, ensure_ascii=False, separators=(",", ":"))


def parts_of(word, request):
    """A request in the parts that tests/cases.c reads."""
    name = request.get("operationName")
    return [
        word,
        request["schema"],
        request["query"],
        compact(request.get("variables") or {}),
        name or "",
        "" if name is None else "named",
        "on" if request.get("introspection") else "",
        compact(request.get("data") or {}),
    ]


def framed(part):
    text = part.encode("utf-8")
    return b"%d\n%s" % (len(text), text)


def outputs_of(text):
    """What tests/cases.c wrote for each request."""
    outputs = []
    while text:
        head, _, rest = text.partition(b"\n")
        length = int(head.split()[1])
        outputs.append(rest[:length])
        text = rest[length:]
    return outputs


def compare(language, rows, outputs):
    wrong = [row[0] for row, output in zip(rows, outputs) if row[3] != output]
    expect(f"the worked requests through {language}", not wrong and len(outputs) == len(rows))
    print(f"bindings: {len(rows) - len(wrong)} of {len(rows)} worked requests through {language} have the program's bytes")
    for name in wrong[:5]:
        print(f"  {name}")


def run_worked(folder):
    rows = list(worked_requests())
    program = compile_c(folder, "cases", ["tests/cases.c", "heap.c"])
    if program is not None:
        text = b"".join(framed(part) for _, word, request, _ in rows for part in parts_of(word, request))
        run = try_command("cases", [program], input=text)
        compare("C", rows, outputs_of(run.stdout) if run.returncode == 0 else [])
    sys.path.insert(0, str(BINDINGS / "python" / "tests"))
    import program as in_python

    outputs = [in_python.run([word], compact(request).encode("utf-8"))[1] for _, word, request, _ in rows]
    compare("Python", rows, outputs)
    rows = [row for row in rows if row[1] == "answer"]
    outputs = [in_python.run(["resolve"], compact(request).encode("utf-8"))[1] for _, _, request, _ in rows]
    compare("resolvers in Python", rows, outputs)


def main():
    sys.dont_write_bytecode = True
    built = subprocess.run([sys.executable, BINDINGS / "build"], capture_output=True, text=True, check=False)
    print(built.stdout, end="")
    if built.returncode == LACKING:
        skip("all", "there is nothing to build the library from")
        return 0
    if built.returncode:
        print(built.stderr[-3000:])
        print("bindings: bindings/build failed")
        return 1
    with tempfile.TemporaryDirectory() as room:
        folder = pathlib.Path(room)
        run_c(folder)
        run_examples(folder)
        run_python(folder)
        run_node()
        run_go()
        run_page()
        run_worked(folder)
    print(f"bindings: {len(passed)} passed, {len(failed)} failed")
    return 1 if failed or not passed else 0


if __name__ == "__main__":
    sys.exit(main())
