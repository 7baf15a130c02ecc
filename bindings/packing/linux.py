"""The tree of programs, library and development files, as it lies below a prefix on Linux; and its archive."""

import datetime

from . import archives
from .archives import Held, link, program, text
from .compiled import BINDINGS, MAJOR, MINOR, SHARED, VERSION

ROOT = BINDINGS.parent
NAME = f"sunwaket-{VERSION}-x86_64-linux"

PKG_CONFIG = """\
prefix={prefix}
includedir=${{prefix}}/include
libdir=${{prefix}}/{libdir}

Name: gql
Description: GraphQL requests answered by a proved engine
Version: {version}
Cflags: -I${{includedir}}
Libs: -L${{libdir}} -lgql
"""

CMAKE = """\
# The targets gql::gql (shared) and gql::static.
get_filename_component(_gql_prefix "${{CMAKE_CURRENT_LIST_DIR}}/{up}" ABSOLUTE)
if(NOT TARGET gql::gql)
  add_library(gql::gql SHARED IMPORTED)
  set_target_properties(gql::gql PROPERTIES
    IMPORTED_LOCATION "${{_gql_prefix}}/{libdir}/{shared}"
    IMPORTED_SONAME "{shared}"
    INTERFACE_INCLUDE_DIRECTORIES "${{_gql_prefix}}/include")
  add_library(gql::static STATIC IMPORTED)
  set_target_properties(gql::static PROPERTIES
    IMPORTED_LOCATION "${{_gql_prefix}}/{libdir}/libgql.a"
    INTERFACE_INCLUDE_DIRECTORIES "${{_gql_prefix}}/include")
endif()
"""

# As long as the first number is 0, the second one tells which interface a version has.
CMAKE_VERSION = """\
set(PACKAGE_VERSION "{version}")
set(_gql_asked "${{PACKAGE_FIND_VERSION_MAJOR}}.${{PACKAGE_FIND_VERSION_MINOR}}")
if(PACKAGE_FIND_VERSION VERSION_GREATER PACKAGE_VERSION OR NOT _gql_asked STREQUAL "{interface}")
  set(PACKAGE_VERSION_COMPATIBLE FALSE)
else()
  set(PACKAGE_VERSION_COMPATIBLE TRUE)
  if(PACKAGE_FIND_VERSION STREQUAL PACKAGE_VERSION)
    set(PACKAGE_VERSION_EXACT TRUE)
  endif()
endif()
"""


def manual(name, when):
    """The page of the manual of a program."""
    page = (BINDINGS / "programs" / "man" / f"{name}.1").read_text(encoding="utf-8")
    day = datetime.datetime.fromtimestamp(when, datetime.timezone.utc).strftime("%Y-%m-%d")
    return page.replace("@VERSION@", VERSION).replace("@DATE@", day)


def is_of_package(path):
    """Whether a file of the package for Python is the same on all systems: its libraries lie elsewhere."""
    return path.suffix in (".py", ".html", ".typed", ".pyi")


def programs(left):
    """The front under each name, the proved programs behind it, and what they show."""
    at, names = BINDINGS / "programs", list(left.programs)
    tree = {"bin/gql": program((at / "gql").read_bytes())}
    tree |= {f"bin/{name}": link("gql") for name in names if name != "gql"}
    tree |= {f"libexec/sunwaket/{name}": program(place.read_bytes()) for name, place in left.programs.items()}
    tree |= {f"share/man/man1/{name}.1": text(manual(name, left.when)) for name in names}
    completion = "share/bash-completion/completions"
    tree |= {f"{completion}/gql": Held((at / "completion.bash").read_bytes())}
    tree |= {f"{completion}/{name}": link("gql") for name in names if name != "gql"}
    tree |= {"share/sunwaket/VERSION": text(f"{VERSION}\n")}
    tree |= archives.folder(at / "front", "share/sunwaket/front")
    tree |= {f"share/sunwaket/help/{name}.txt": Held((at / "help" / f"{name}.txt").read_bytes()) for name in names}
    return tree | archives.folder(BINDINGS / "python" / "sunwaket", "share/sunwaket/python/sunwaket", is_of_package)


def library(lib, libdir):
    """The shared library."""
    return {f"{libdir}/{SHARED}": Held((lib / SHARED).read_bytes())}


def development(lib, libdir, prefix):
    """What a C compiler needs, by pkg-config and CMake too. `prefix` is what pkg-config is told."""
    up = "/".join([".."] * (libdir.count("/") + 3))
    filled = {"libdir": libdir, "shared": SHARED, "version": VERSION, "interface": f"{MAJOR}.{MINOR}", "prefix": prefix, "up": up}
    return {
        "include/gql.h": Held((BINDINGS / "c" / "gql.h").read_bytes()),
        f"{libdir}/libgql.a": Held((lib / "libgql.a").read_bytes()),
        f"{libdir}/libgql.so": link(SHARED),
        f"{libdir}/pkgconfig/gql.pc": text(PKG_CONFIG.format(**filled)),
        f"{libdir}/cmake/gql/gqlConfig.cmake": text(CMAKE.format(**filled)),
        f"{libdir}/cmake/gql/gqlConfigVersion.cmake": text(CMAKE_VERSION.format(**filled)),
    }


def archive(left, lib, told):
    """The name and the bytes of the archive; `told` is what goes with each package."""
    tree = told | programs(left) | library(lib, "lib") | development(lib, "lib", "${pcfiledir}/../..")
    tree |= {"examples/first.c": Held((BINDINGS / "c" / "example.c").read_bytes())}
    return f"{NAME}.tar.gz", archives.tar_gz(archives.below(NAME, tree), left.when)
