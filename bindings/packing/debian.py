"""The packages for Debian: programs, library, development files. `dpkg-deb` makes them."""

import dataclasses
import email.utils
import gzip
import hashlib
import os
import pathlib
import re
import shutil
import subprocess
import tempfile

from . import linux
from .archives import Held, text, write_tree
from .bill import parts
from .compiled import BINDINGS, MAJOR, MINOR, SHARED, VERSION
from .left import Lacking
from .symbols import exported, glibc_age

MAINTAINER = "Sunwaket maintainers <maintainers@users.noreply.sunwaket.example>"
LIBDIR = "lib/x86_64-linux-gnu"
REVISION = f"{VERSION}-1"

# As long as the first number is 0, another second one is another interface.
SAME_INTERFACE = f"libgql0 (<< {MAJOR}.{int(MINOR) + 1}~)"

CONTROL = """\
Package: {name}
Source: sunwaket
Version: {version}
Architecture: amd64
Maintainer: {maintainer}
Installed-Size: {size}
{fields}Section: {section}
Priority: optional
Description: {description}
"""

ABOUT = """\
 A GraphQL engine that nobody has to take on trust: that a response is right
 and that a refusal is true is proved for every input.
 .
"""

COPYRIGHT = """\
Format: https://www.debian.org/doc/packaging-manuals/copyright-format/1.0/
Upstream-Name: Sunwaket

Files: *
Copyright: 2026 Sunwaket maintainers
License: Expat

Files: usr/lib/* usr/libexec/*
Copyright: {owners}
License: Expat
Comment: These hold ports of crates for Rust.

License: Expat
{expat}"""


@dataclasses.dataclass
class Package:
    """A package: its files below `usr`, its own fields of the control file, and further control files."""

    name: str
    section: str
    tree: dict
    fields: list
    description: str
    control: dict = dataclasses.field(default_factory=dict)


def installed_size(tree):
    """What the files take, in units of 1,024 bytes."""
    return sum((len(held.content) + 1023) // 1024 or 1 for held in tree.values())


def small(content):
    """Compressed as Debian wants documents."""
    return Held(gzip.compress(content, compresslevel=9, mtime=0))


def indented(content):
    """A text as a field of many lines holds it."""
    return "".join(f" {line}\n" if line else " .\n" for line in content.strip().splitlines())


def owners_of(part):
    """Whose a crate of the toolchain is, as its MIT licence tells."""
    lines = part.texts["MIT"].splitlines()
    told = [line.partition(")")[2].strip() for line in lines if re.match(r"\s*Copyright \(c\)", line)]
    return f"{told[0] if told else 'its authors'} ({part.name} {part.version})"


def copyright_file():
    """Whose the parts are, and their licence, which is one of those that the crates may be had by."""
    ports = [part for part in parts() if "MIT" in part.texts]
    owners = "\n           ".join(["2026 Sunwaket maintainers", *map(owners_of, ports)])
    expat = (BINDINGS.parent / "LICENSE").read_text(encoding="utf-8").split("\n\n", 2)[2]
    return COPYRIGHT.format(owners=owners, expat=indented(expat))


def changelog(when):
    """Debian's own list of changes."""
    day = email.utils.formatdate(when)
    return f"sunwaket ({REVISION}) unstable; urgency=medium\n\n  * Version {VERSION}: see changelog.gz.\n\n -- {MAINTAINER}  {day}\n"


def documents(name, told, when):
    """What lies in a package's folder of documents."""
    at = f"share/doc/{name}"
    kept = {f"{at}/{file}": held for file, held in told.items() if file in ("PROVED.txt", "PROVED.md", "README.md")}
    kept[f"{at}/sunwaket.spdx.json.gz"] = small(told["sunwaket.spdx.json"].content)
    kept[f"{at}/changelog.gz"] = small(told["CHANGELOG.md"].content)
    kept[f"{at}/changelog.Debian.gz"] = small(changelog(when).encode())
    kept[f"{at}/copyright"] = text(copyright_file())
    return kept


def packed_manuals(tree):
    """A tree whose pages of the manual are compressed."""
    return {f"{name}.gz" if "/man/" in name else name: small(held.content) if "/man/" in name else held for name, held in tree.items()}


def overrides(name, *tags):
    """What lintian is to pass over, each with its cause."""
    told = [*tags, ("initial-upload-closes-no-bugs *", "the package is no part of Debian, so there is no bug to close")]
    return {f"share/lintian/overrides/{name}": text("".join(f"# {why}\n{name}: {tag}\n" for tag, why in told))}


def glibc_needed(*contents):
    return "libc6 (>= {}.{})".format(*glibc_age(*contents))


def with_documents(name, tree, told, when, *passed_over):
    """A package's tree, with its documents and what lintian is to pass over."""
    return tree | overrides(name, *passed_over) | documents(name, told, when)


def program_package(left, told):
    """The package of programs."""
    unstripped = "the programs are the gate's own, byte for byte, as PROVED.txt tells their sums"
    passed_over = [(f"unstripped-binary-or-object [usr/libexec/sunwaket/{name}]", unstripped) for name in left.programs]
    needs = glibc_needed(*(place.read_bytes() for place in left.programs.values()))
    return Package(
        "sunwaket",
        "utils",
        with_documents("sunwaket", packed_manuals(linux.programs(left)), told, left.when, *passed_over),
        [f"Depends: {needs}", f"Recommends: libgql0 (= {REVISION}), python3 (>= 3.8)"],
        f"proved GraphQL engine: programs\n{ABOUT} These are programs that answer and check GraphQL requests over JSON, and a mock\n server with a page.",
    )


def library_package(left, lib, told):
    """The package of the shared library."""
    tree = linux.library(lib, LIBDIR)
    content = tree[f"{LIBDIR}/{SHARED}"].content
    symbols = "".join(f" {name}@Base {VERSION}\n" for name in exported(content))
    control = {
        "shlibs": text(f"libgql 0 libgql0 (>= {VERSION}), {SAME_INTERFACE}\n"),
        "symbols": text(f"{SHARED} libgql0 #MINVER#, {SAME_INTERFACE}\n{symbols}"),
        "triggers": text("activate-noawait ldconfig\n"),
    }
    return Package(
        "libgql0",
        "libs",
        with_documents("libgql0", tree, told, left.when),
        [f"Depends: {glibc_needed(content)}", "Multi-Arch: same"],
        f"proved GraphQL engine: shared library\n{ABOUT} This is the shared library that programs in C, and in languages that call C,\n stand on.",
        control,
    )


def development_package(left, lib, told):
    """The package of header, static library, and the files of pkg-config and CMake."""
    tree = linux.development(lib, LIBDIR, "/usr")
    tree["share/doc/libgql-dev/examples/first.c"] = Held((BINDINGS / "c" / "example.c").read_bytes())
    return Package(
        "libgql-dev",
        "libdevel",
        with_documents("libgql-dev", tree, told, left.when),
        [f"Depends: libgql0 (= {REVISION})", "Multi-Arch: same"],
        f"proved GraphQL engine: development files\n{ABOUT} These are the header, the static library, and what pkg-config and CMake read.",
    )


def control_file(package, size):
    """The file that says what a package is."""
    fields = "".join(f"{field}\n" for field in package.fields)
    told = {"name": package.name, "section": package.section, "description": package.description, "fields": fields}
    return CONTROL.format(**told, version=REVISION, maintainer=MAINTAINER, size=size)


def deb(package, when, folder):
    """Has dpkg-deb make a package; gives its name and its bytes."""
    tree = {f"usr/{name}": held for name, held in package.tree.items()}
    sums = "".join(f"{hashlib.md5(held.content).hexdigest()}  {name}\n" for name, held in sorted(tree.items()) if not held.link)
    control = {"control": text(control_file(package, installed_size(tree))), "md5sums": text(sums), **package.control}
    place = folder / package.name
    write_tree(place, tree | {f"DEBIAN/{name}": held for name, held in control.items()}, when)
    name = f"{package.name}_{REVISION}_amd64.deb"
    words = ["dpkg-deb", "--root-owner-group", "-Zxz", "--threads-max=1", "--build", place, folder / name]
    subprocess.run(words, check=True, stdout=subprocess.DEVNULL, env=os.environ | {"SOURCE_DATE_EPOCH": str(when)})
    return name, (folder / name).read_bytes()


def packages(left, lib, told):
    """The names and the bytes of the three packages."""
    if shutil.which("dpkg-deb") is None:
        raise Lacking("dpkg-deb is not here, which makes the packages for Debian")
    made = [program_package(left, told), library_package(left, lib, told), development_package(left, lib, told)]
    with tempfile.TemporaryDirectory() as room:
        return [deb(package, left.when, pathlib.Path(room)) for package in made]
