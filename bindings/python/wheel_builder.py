"""Builds the wheel, which holds the shared library, with nothing but Python: `pip wheel .` calls it, and `python3 wheel_builder.py FOLDER`."""

import base64
import hashlib
import io
import pathlib
import sys
import zipfile

HERE = pathlib.Path(__file__).resolve().parent
sys.path.insert(0, str(HERE.parent))

from packing.compiled import VERSION  # noqa: E402
from packing.symbols import glibc_age, wheel_platform  # noqa: E402

NAME = "sunwaket"
INFO = f"{NAME}-{VERSION}.dist-info"
LIBRARY = f"{NAME}/libgql.so"

# An extension module that keeps to the limited API of this Python, and later ones, ends so.
LIMITED, LIMITED_TAG = ".abi3.so", "cp38-abi3"

METADATA = """\
Metadata-Version: 2.1
Name: {name}
Version: {version}
Summary: GraphQL requests answered by a proved engine
License: MIT
Requires-Python: >=3.8
Classifier: License :: OSI Approved :: MIT License
Classifier: Operating System :: POSIX :: Linux
Classifier: Programming Language :: Python :: 3
Classifier: Typing :: Typed
Description-Content-Type: text/markdown

{page}"""

# Where files that go with each package lie in a wheel; others lie beside the metadata.
FOLDERS = {"LICENSE": "licenses", "THIRD_PARTY_LICENSES.txt": "licenses", "sunwaket.spdx.json": "sboms"}


def sources():
    """The package's own files, by name, without the shared library."""
    paths = [path for path in sorted((HERE / NAME).rglob("*")) if path.is_file() and "__pycache__" not in path.parts]
    held = {path.relative_to(HERE).as_posix(): path.read_bytes() for path in paths}
    return {name: content for name, content in held.items() if not name.startswith(LIBRARY)}


def tags_of(held):
    """The tags of a wheel: which Python, which interface to it, and which systems, as the symbols of its libraries allow."""
    libraries = {name: content for name, content in held.items() if name.endswith(".so")}
    python = LIMITED_TAG if any(name.endswith(LIMITED) for name in libraries) else "py3-none"
    names = [pathlib.PurePosixPath(name).name for name in libraries]
    return python, wheel_platform(glibc_age(*libraries.values(), beside=names))


def head(python, platforms):
    """What the wheel says of itself."""
    tags = "".join(f"Tag: {python}-{platform}\n" for platform in platforms.split("."))
    return f"Wheel-Version: 1.0\nGenerator: {NAME}\nRoot-Is-Purelib: false\n{tags}".encode()


def digest(content):
    return base64.urlsafe_b64encode(hashlib.sha256(content).digest()).rstrip(b"=").decode()


def wheel(library, told):
    """The name and the bytes of the wheel with this shared library; `told` are files that go with it, of which README.md is its page."""
    held = sources() | {LIBRARY: library}
    python, platforms = tags_of(held)
    page = told.get("README.md", b"").decode("utf-8")
    for name, content in told.items():
        if name != "README.md":
            held["/".join(filter(None, [INFO, FOLDERS.get(name), name]))] = content
    held[f"{INFO}/METADATA"] = METADATA.format(name=NAME, version=VERSION, page=page).encode()
    held[f"{INFO}/WHEEL"] = head(python, platforms)
    record = f"{INFO}/RECORD"
    lines = [f"{name},sha256={digest(content)},{len(content)}\n" for name, content in held.items()]
    held[record] = "".join([*lines, f"{record},,\n"]).encode()
    return f"{NAME}-{VERSION}-{python}-{platforms}.whl", zipped(held)


def zipped(held):
    """The bytes of a zip file, with one time for all that it holds."""
    file = io.BytesIO()
    with zipfile.ZipFile(file, "w", zipfile.ZIP_DEFLATED) as archive:
        for name, content in held.items():
            entry = zipfile.ZipInfo(name)
            entry.external_attr = 0o100644 << 16
            archive.writestr(entry, content, zipfile.ZIP_DEFLATED)
    return file.getvalue()


def build_wheel(wheel_directory, config_settings=None, metadata_directory=None):
    """The entry that pip calls: writes the wheel, and gives its name."""
    library = HERE / LIBRARY
    if not library.is_file():
        raise SystemExit("there is no libgql.so in the package: run bindings/build first")
    name, content = wheel(library.read_bytes(), {"LICENSE": (HERE.parent.parent / "LICENSE").read_bytes()})
    (pathlib.Path(wheel_directory) / name).write_bytes(content)
    return name


def get_requires_for_build_wheel(config_settings=None):
    return []


if __name__ == "__main__":
    print(build_wheel(sys.argv[1]))
