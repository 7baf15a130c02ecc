#!/usr/bin/env python3
"""Tests the servers over the built C library: the mock server (GraphQL over HTTP, its data, its page in a browser, a client's requests), and
the handlers for servers of one's own (docs/SERVERS.md) under wsgiref, uvicorn, Starlette, Flask, node:http, Express and Go's net/http, with
their limits, stores and streams.

    checks/server.py [--load SECONDS] [--beside SECONDS] [--hostile SECONDS]

Needs `libgql.so` (`bindings/build`). The page needs Chromium with its driver, and Selenium; the handlers need uvicorn, Starlette, Flask,
Redis, Express and Go. As root, Debian's packages are installed where they are missing and can be had. What is missing is said, and passed over. With `--load`, requests a second and the slowest are
told too, beside a server over graphql-js where Node has that package; nothing fails by a time. With `--beside`, the bookshop of examples/shop is
asked beside the same under graphql-core, by wrk; with `--hostile`, it is asked right, damaged and hostile things and killed in between."""
import os
import pathlib
import shutil
import subprocess
import sys
import tempfile

from shared import beside, hostile
from shared.loading import tell_load
from shared.trying import ROOT

PYTHON = ROOT / "bindings" / "python"
LIBRARY = PYTHON / "sunwaket" / "libgql.so"
BROWSER = ["chromium", "chromium-driver", "python3-selenium"]
SERVERS = ["python3-uvicorn", "python3-starlette", "python3-flask", "redis-server", "node-express", "golang-go", "wrk"]
# Debian's Python, for which Debian's packages are.
DEBIAN_PYTHON = pathlib.Path("/usr/bin/python3")

# In seconds; it only ends what would not end by itself.
PATIENCE = 900
INSTALLING = 240


def run_tests(python, module):
    """Whether the tests of a module passed; says what they said where they did not."""
    paths = os.pathsep.join([str(PYTHON), str(PYTHON / "tests"), str(ROOT / "examples")])
    made = subprocess.run(
        [python, "-m", "unittest", module],
        cwd=PYTHON / "tests",
        env=os.environ | {"PYTHONPATH": paths, "PYTHONDONTWRITEBYTECODE": "1"},
        capture_output=True,
        text=True,
        check=False,
        timeout=PATIENCE,
    )
    lines = [line for line in made.stderr.splitlines() if '" 2' not in line and '" 4' not in line]
    skipped = "skipped" in (lines or [""])[-1]
    print(f"server: {module}: {'passed' if made.returncode == 0 else 'FAILED'}{', some of it skipped' if skipped else ''}")
    if made.returncode:
        print("\n".join(lines[-40:]))
    return made.returncode == 0


def has(packages, commands, modules):
    """Whether the commands and Debian's modules of some packages are here; installs the packages where it may."""

    def is_there():
        imported = subprocess.run([DEBIAN_PYTHON, "-c", f"import {', '.join(modules)}"], capture_output=True, check=False)
        return all(map(shutil.which, commands)) and imported.returncode == 0

    if DEBIAN_PYTHON.exists() and not is_there() and os.geteuid() == 0 and shutil.which("apt-get"):
        words = ["apt-get", "install", "-y", "--no-install-recommends", *packages]
        quiet = {"stdout": subprocess.DEVNULL, "stderr": subprocess.DEVNULL, "check": False, "timeout": INSTALLING}
        try:
            subprocess.run(["apt-get", "update"], **quiet)
            subprocess.run(words, env=os.environ | {"DEBIAN_FRONTEND": "noninteractive"}, **quiet)
        except subprocess.TimeoutExpired:
            pass
    return DEBIAN_PYTHON.exists() and is_there()


def go_tests(folder):
    """The tests of the package for Go as a program, which serves too; None where they are not built."""
    out = ROOT / "bindings" / "out"
    if shutil.which("go") is None or not (out / "lib" / "libgql.a").is_file():
        print("server: Go is not here, or no library for it: its handler was not tried")
        return None
    told = {"CGO_CFLAGS": f"-I{out / 'include'}", "CGO_LDFLAGS": str(out / "lib" / "libgql.a"), "GOFLAGS": "-mod=mod", "GOPROXY": "off"}
    words = ["go", "test", "-c", "-o", folder / "serve", "."]
    made = subprocess.run(words, cwd=ROOT / "bindings" / "go", env=os.environ | told, capture_output=True, text=True, check=False, timeout=PATIENCE)
    if made.returncode:
        print(f"server: the tests for Go are not built: {made.stderr[-2000:]}")
    return folder / "serve" if made.returncode == 0 else None


def run_handlers():
    """Whether the tests of the handlers passed."""
    if not has(SERVERS, ["redis-server", "go"], ["uvicorn", "starlette", "flask"]):
        print("server: uvicorn, Starlette, Flask, Redis and Go are not all here: what needs one that is missing is skipped")
    python = DEBIAN_PYTHON if DEBIAN_PYTHON.exists() else sys.executable
    with tempfile.TemporaryDirectory() as folder:
        served = go_tests(pathlib.Path(folder))
        if served is not None:
            os.environ["SUNWAKET_GO_TESTS"] = str(served)
        return all([run_tests(python, module) for module in ("test_endpoint", "test_servers", "test_redis", "shop.test_shop")])


def run_node_shop():
    """Whether the tests of the shop in Node passed."""
    if shutil.which("node") is None or not (ROOT / "bindings" / "node" / "sunwaket.node").is_file():
        print("server: there is no library for Node: its shop was not tried")
        return True
    words = ["node", "--test", ROOT / "examples" / "shop" / "node" / "shop.test.js"]
    made = subprocess.run(words, capture_output=True, text=True, check=False, timeout=PATIENCE)
    print(f"server: the shop in Node: {'passed' if made.returncode == 0 else 'FAILED'}")
    if made.returncode:
        print(made.stdout[-3000:])
    return made.returncode == 0


def main(words):
    if not LIBRARY.is_file():
        print("server: there is no bindings/python/sunwaket/libgql.so (bindings/build makes it): nothing was tried")
        return 0
    passed = [run_tests(sys.executable, module) for module in ("test_mock_http", "test_mock_data", "test_mock_process")]
    passed += [run_handlers(), run_node_shop()]
    if has(BROWSER, ["chromedriver"], ["selenium"]):
        # Once more where it failed: a browser's driver may lose its browser.
        passed.append(run_tests(DEBIAN_PYTHON, "test_mock_page") or run_tests(DEBIAN_PYTHON, "test_mock_page"))
    else:
        print("server: there is no Chromium with its driver and Selenium: the page was not tried")
    if "--load" in words:
        tell_load(PYTHON, float(words[words.index("--load") + 1]))
    python = DEBIAN_PYTHON if DEBIAN_PYTHON.exists() else sys.executable
    if "--beside" in words:
        beside.main(int(words[words.index("--beside") + 1]), python)
    if "--hostile" in words:
        passed.append(hostile.main(float(words[words.index("--hostile") + 1]), python))
    return 0 if all(passed) else 1


if __name__ == "__main__":
    sys.exit(main(sys.argv[1:]))
