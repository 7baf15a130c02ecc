#!/usr/bin/env python3
"""Makes the packages of a release from what the gate has left, twice (bindings/release --check), and tries each where nothing of the
repository is: in a fresh folder with a fresh home, without network, by the commands of the package's own page.

- Each has its page, the licences, the statement of what was proved with what it means, and the bill of materials; the sums are right.
- The wheel, the archives for npm, for Go and for Linux are installed, give their first answer, and go with their folders; the C library is
  found by pkg-config and by CMake; the front of the programs passes its tests.
- The packages for Debian pass lintian, are installed into a Debian of their own that debootstrap makes, give their first answer, and leave
  nothing when they are removed; where no Debian comes they are unpacked.
- The tag of the wheel allows no system that lacks what its library needs, by another reader of its symbols.

    checks/packages.py [--root FOLDER] [--programs FOLDER] [--archive FILE]

`--root` names a Debian that debootstrap has made, which is copied; the other two are those of bindings/release. It says what it skips."""
import argparse
import hashlib
import io
import json
import os
import pathlib
import re
import shutil
import subprocess
import sys
import tarfile
import tempfile
import time
import zipfile

from shared.environments import Debian, blocks, cut_off, first_answer, run_in, unpacked
from shared.trying import ROOT

LACKING = 3
PATIENCE = 1800
TOLD = ["LICENSE", "THIRD_PARTY_LICENSES.txt", "CHANGELOG.md", "PROVED.txt", "PROVED.md", "sunwaket.spdx.json", "README.md"]

# Which package a page is of: what it cannot do without, as a command that passes where that is here, and its archive.
PAGES = {
    "linux": ("tar --version", "sunwaket-*-linux.tar.gz"),
    "python": ("python3 -m venv fresh", "sunwaket-*.whl"),
    "node": ("npm --version", "sunwaket-*.tgz"),
    "go": ("go version && cc --version", "sunwaket-go-*.tar.gz"),
}

CMAKE = """\
cmake_minimum_required(VERSION 3.13)
project(first C)
find_package(gql {version} REQUIRED)
add_executable(shared first.c)
target_link_libraries(shared gql::gql)
add_executable(static first.c)
target_link_libraries(static gql::static)
"""

passed, failed = [], []


def expect(name, holds, told=""):
    (passed if holds else failed).append(name)
    if not holds:
        print(f"packages: {name} FAILED\n{told[-3000:]}")


def skip(what, why):
    print(f"packages: skipped {what}: {why}")


def only(release, pattern):
    """The one file of a pattern; None where that package was left out."""
    return next(iter(sorted(release.glob(pattern))), None)


# ---- what stands in the packages


def names_in(archive):
    """The names that an archive holds, with what its files hold."""
    if archive.suffix == ".whl":
        with zipfile.ZipFile(archive) as held:
            return {name: held.read(name) for name in held.namelist()}
    content = archive.read_bytes()
    if archive.suffix == ".deb":
        content = subprocess.run(["dpkg-deb", "--fsys-tarfile", archive], capture_output=True, check=True).stdout
    with tarfile.open(fileobj=io.BytesIO(content)) as held:
        return {it.name: held.extractfile(it).read() for it in held.getmembers() if it.isfile()}


def try_contents(release):
    """The sums, and what goes with each package."""
    lines = (release / "SHA256SUMS").read_text(encoding="utf-8").split("\n")[:-1]
    sums = {line.split("  ")[1]: line.split("  ")[0] for line in lines}
    right = all(hashlib.sha256((release / name).read_bytes()).hexdigest() == total for name, total in sums.items())
    expect("the sums of all packages", right and set(sums) | {"SHA256SUMS", "README.md"} == {path.name for path in release.iterdir()})
    version, changes = ((ROOT / name).read_text(encoding="utf-8") for name in ("VERSION", "CHANGELOG.md"))
    expect("the list of changes, which begins with this version,", re.search(r"(?m)^## (.*)$", changes)[1] == version.strip())
    for archive in filter(None, (only(release, pattern) for _, pattern in PAGES.values())):
        held = names_in(archive)
        # The page of the wheel is in its metadata.
        wanted = [name for name in TOLD if name != "README.md" or archive.suffix != ".whl"]
        lacking = [name for name in wanted if not any(pathlib.PurePosixPath(it).name == name for it in held)]
        expect(f"what goes with {archive.name}", not lacking, f"lacking: {lacking}")
        bill = next((content for name, content in held.items() if name.endswith("sunwaket.spdx.json")), b"{}")
        packages = [package["name"] for package in json.loads(bill).get("packages", [])]
        expect(f"the bill of {archive.name}", packages[:1] == ["sunwaket"] and {"bytes", "indexmap", "std"} <= set(packages), str(packages))
    for deb in sorted(release.glob("*.deb")):
        names = {pathlib.PurePosixPath(name).name for name in names_in(deb)}
        expect(f"what goes with {deb.name}", {"copyright", "PROVED.txt", "PROVED.md", "sunwaket.spdx.json.gz", "changelog.gz"} <= names, str(names))


def try_tag(release, folder):
    """The wheel's tag, by the symbols that readelf tells of its libraries."""
    if shutil.which("readelf") is None:
        skip("the tag of the wheel", "readelf is not here")
        return
    wheel, versions = only(release, "sunwaket-*.whl"), []
    for number, (name, content) in enumerate(names_in(wheel).items()):
        if name.endswith(".so"):
            (folder / f"library{number}").write_bytes(content)
            told = subprocess.run(["readelf", "--version-info", folder / f"library{number}"], capture_output=True, text=True, check=True).stdout
            versions += [(int(major), int(minor)) for major, minor in re.findall(r"GLIBC_(\d+)\.(\d+)", told)]
    tag = re.search(r"manylinux_(\d+)_(\d+)_x86_64", wheel.name)
    allowed = (int(tag[1]), int(tag[2]))
    expect("the tag of the wheel", bool(versions) and max(versions) <= allowed, f"{max(versions)} and {allowed}")
    print(f"packages: the wheel's library needs glibc {'.'.join(map(str, max(versions)))}, and its tag allows {'.'.join(map(str, allowed))} and later")


def try_without_native(release, folder):
    """The first answer in Node where the native module does not fit: by the WebAssembly module, which the package holds."""
    package = folder / "node" / "first" / "node_modules" / "sunwaket"
    if not (package / "sunwaket.wasm").is_file():
        skip("Node without the native module", "the package has no WebAssembly module")
        return
    (package / "sunwaket.node").unlink()
    _, printed = first_answer(page_of("node", only(release, PAGES["node"][1])))
    status, written, said = run_in(folder / "node", "cd first\nnode first.js")
    expect("Node without the native module", status == 0 and written == printed, written + said)


def try_playground(release):
    """The page with the engine inside: that it is whole, loads nothing from elsewhere, and says what was proved."""
    page = only(release, "sunwaket-*-playground.html")
    if page is None:
        skip("the page with the engine inside", "it was left out")
        return
    text = page.read_text(encoding="utf-8")
    loads = re.findall(r"""<(?:script|link|img|iframe)\b[^>]*\b(?:src|href)=["']?(?:https?:)?//[^>]*>|url\(["']?https?:[^)]*\)""", text)
    expect("the page with the engine inside", not loads and "state:" in text.rpartition("<!--")[2], str(loads)[:500])


def pythons():
    """The interpreters here that the wheel is for, by what they say that they are."""
    found = {}
    for command in ["python3", *(f"python3.{minor}" for minor in range(8, 20))]:
        if shutil.which(command):
            told = subprocess.run([command, "-c", "import sys; print(*sys.version_info[:2], sys.executable)"], capture_output=True, text=True, check=False)
            if told.returncode == 0:
                major, minor, place = told.stdout.split(maxsplit=2)
                found[int(major), int(minor)] = place.strip()
    return {version: place for version, place in found.items() if version >= (3, 8)}


def try_pythons(release, folder):
    """The page's program under each Python that is here, over the unpacked wheel."""
    wheel = only(release, PAGES["python"][1])
    with zipfile.ZipFile(wheel) as held:
        held.extractall(folder / "wheel")
    code, printed = first_answer(page_of("python", wheel))
    program = re.search(r"<<'END'\n(.*?)END\n", "".join(code), re.DOTALL)[1]
    for version, place in sorted(pythons().items()):
        env = {"PYTHONPATH": str(folder / "wheel"), "PYTHONDONTWRITEBYTECODE": "1"}
        made = subprocess.run([place, "-c", program], capture_output=True, text=True, env=env, check=False)
        expect(f"the wheel under Python {version[0]}.{version[1]}", made.returncode == 0 and made.stdout == printed, made.stderr)


def try_lintian(release):
    debs = sorted(release.glob("*.deb"))
    if shutil.which("lintian") is None or not debs:
        skip("lintian", "it is not here, or nothing for it")
        return
    made = subprocess.run(["lintian", "--allow-root", "--fail-on", "error,warning", *debs], capture_output=True, text=True, check=False)
    expect("lintian", made.returncode == 0 and len(debs) == 3, made.stdout + made.stderr)


# ---- the pages


def follow(name, release, folder):
    """Follows a package's page to its first answer, in a folder with nothing but the package."""
    needed, pattern = PAGES[name]
    archive, place = only(release, pattern), folder / name
    place.mkdir()
    if archive is None or run_in(place, needed)[0] != 0:
        skip(f"the page {name}", f"`{needed}` does not pass here" if archive else "the package was left out")
        return None
    shutil.copy2(archive, place)
    code, printed = first_answer(page_of(name, archive))
    begin = time.monotonic()
    status, written, said = run_in(place, "".join(code))
    print(f"packages: {name}: a first answer in {time.monotonic() - begin:.1f} s")
    expect(f"the page {name}", status == 0 and written.endswith(printed), f"status {status}\n{written}{said}")
    return place


def page_of(name, archive):
    """The page that an archive holds."""
    held = names_in(archive)
    wanted = next(it for it in held if it.endswith("METADATA" if name == "python" else "README.md"))
    return held[wanted].decode("utf-8")


def try_further_code(release, folder):
    """What the pages for Python and Node show behind the first answer, which prints what stands at its end."""
    runners = {"python": ("first/bin/python", "-c", "#", "python"), "node": ("node", "-e", "//", "js")}
    for name, (runner, word, mark, language) in runners.items():
        place = folder / name
        if not (place / "first").is_dir():
            continue
        code = blocks(page_of(name, only(release, PAGES[name][1])), language)[0]
        printed = code.strip().rpartition(mark + " ")[2]
        (place / "further").write_text(code, encoding="utf-8")
        where = "" if name == "python" else "cd first\n"
        status, written, said = run_in(place, f'{where}{runner} {word} "$(cat {place}/further)"')
        expect(f"the resolvers on the page {name}", status == 0 and written == printed + "\n", written + said)


def try_c(place):
    """The C library of the unpacked archive: the page's commands, and CMake."""
    prefix = next(place.glob("sunwaket-*-linux"))
    page = (prefix / "README.md").read_text(encoding="utf-8")
    wanted = '{"data":{"book":{"title":"Emma","year":1815}}}\n'
    if shutil.which("pkg-config") is None or shutil.which("cc") is None:
        skip("the C library by pkg-config", "pkg-config or a C compiler is not here")
    else:
        code = blocks(page.partition("\n## From C\n")[2], "sh")[0]
        status, written, said = run_in(place, f"cd {prefix}\n{code}")
        expect("the C library by pkg-config", status == 0 and written == wanted, written + said)
    if shutil.which("cmake") is None:
        skip("the C library by CMake", "cmake is not here")
        return
    project = place / "project"
    project.mkdir()
    shutil.copy2(prefix / "examples" / "first.c", project)
    version = (prefix / "share" / "sunwaket" / "VERSION").read_text(encoding="utf-8").strip()
    (project / "CMakeLists.txt").write_text(CMAKE.format(version=version), encoding="utf-8")
    code = f"cmake -S project -B made -DCMAKE_PREFIX_PATH={prefix} >log\ncmake --build made >>log\nmade/shared\nmade/static"
    status, written, said = run_in(place, code)
    expect("the C library by CMake", status == 0 and written == 2 * wanted, written + said)


def try_front(place):
    """The tests of the programs' front."""
    prefix = next(place.glob("sunwaket-*-linux"))
    tests = ROOT / "bindings" / "programs" / "tests"
    env = os.environ | {"SUNWAKET_PREFIX": str(prefix), "PYTHONDONTWRITEBYTECODE": "1"}
    words = [sys.executable, "-m", "unittest", "-q", "test_front"]
    made = subprocess.run(words, cwd=tests, env=env, capture_output=True, text=True, timeout=PATIENCE, check=False)
    expect("the front of the programs", made.returncode == 0, made.stderr)


def try_debian(release, folder, given_root):
    """The packages for Debian, in a Debian of their own or unpacked."""
    debs = sorted(release.glob("*.deb"))
    if not debs:
        skip("the packages for Debian", "they were left out")
        return
    page = names_in(next(deb for deb in debs if deb.name.startswith("sunwaket_")))
    (install, answer), printed = first_answer(next(content for name, content in page.items() if name.endswith("README.md")).decode())
    system = Debian(folder / "debian")
    system.folder.mkdir()
    lacking = system.come(given_root)
    if lacking:
        skip("the install of the packages for Debian", f"{lacking}; they are unpacked")
        programs = unpacked(folder / "unpacked", debs)
        status, written, said = run_in(folder, f"PATH={programs}:$PATH\n{answer}")
        expect("the programs for Debian, unpacked", status == 0 and written == printed, written + said)
        return
    system.take(debs)
    begin = time.monotonic()
    status, written, said = system.run(install + answer)
    print(f"packages: debian: a first answer in {time.monotonic() - begin:.1f} s")
    expect("the page debian", status == 0 and written.endswith(printed), written + said)
    status, written, said = system.run("dpkg --purge sunwaket libgql-dev libgql0")
    left = system.files_named("sunwaket", "libgql", "gql.h", "gql.pc")
    expect("the removal from Debian", status == 0 and not left, f"{said}\nleft: {left}")


def words_of(words):
    parser = argparse.ArgumentParser(description=__doc__, formatter_class=argparse.RawDescriptionHelpFormatter)
    parser.add_argument("--root", type=pathlib.Path)
    parser.add_argument("--programs", type=pathlib.Path)
    parser.add_argument("--archive", type=pathlib.Path)
    return parser.parse_args(words)


def release_into(folder, given):
    """Makes a release twice; gives whether it came, or None where something is lacking."""
    words = [sys.executable, ROOT / "bindings" / "release", folder, "--check", "--trial"]
    for name in ("programs", "archive"):
        if getattr(given, name) is not None:
            words += [f"--{name}", getattr(given, name)]
    made = subprocess.run(words, capture_output=True, text=True, timeout=PATIENCE, check=False)
    print(made.stdout, end="")
    if made.returncode == LACKING:
        return None
    expect("a release, made twice the same", made.returncode == 0, made.stderr)
    return folder.is_dir() and (folder / "SHA256SUMS").is_file()


def main(words):
    sys.dont_write_bytecode = True
    given = words_of(words)
    with tempfile.TemporaryDirectory(ignore_cleanup_errors=True) as room:
        folder = pathlib.Path(room)
        release = folder / "release"
        came = release_into(release, given)
        if came is None:
            skip("all", "there is nothing to make packages from")
            return 0
        if came:
            if not cut_off():
                skip("that nothing comes from the network", "the system lets nobody cut it off")
            try_contents(release)
            try_tag(release, folder)
            try_lintian(release)
            places = {name: follow(name, release, folder) for name in PAGES}
            try_further_code(release, folder)
            try_without_native(release, folder)
            try_playground(release)
            try_pythons(release, folder)
            if places["linux"]:
                try_c(places["linux"])
                try_front(places["linux"])
            try_debian(release, folder, given.root)
    print(f"packages: {len(passed)} passed, {len(failed)} failed")
    return 1 if failed or not passed else 0


if __name__ == "__main__":
    sys.exit(main(sys.argv[1:]))
