"""What a C compiler makes of the archive of the proved calls: both libraries, and the module for Node. No path of this machine is in them."""

import os
import pathlib
import shutil
import subprocess

BINDINGS = pathlib.Path(__file__).resolve().parent.parent
VERSION = (BINDINGS.parent / "VERSION").read_text(encoding="utf-8").strip()

MAJOR, MINOR = VERSION.split(".")[:2]

# The shared library is asked for by this name.
SHARED = f"libgql.so.{MAJOR}"
CC = os.environ.get("CC", "cc")


def run(*words, **how):
    subprocess.run([str(word) for word in words], check=True, **how)


def same_paths(*folders):
    """Words for the compiler, with which these folders leave no trace."""
    return [f"-ffile-prefix-map={folder}=." for folder in folders]


def compile_library(archive, lib):
    """`libgql.a` and the shared library, with its link, into the folder `lib`: the calls of `archive`, over the C library's own allocator."""
    heap = lib / "heap.o"
    run(CC, "-O2", "-fPIC", "-fvisibility=hidden", *same_paths(BINDINGS, lib), "-c", BINDINGS / "c" / "heap.c", "-o", heap)
    shutil.copyfile(archive, lib / "libgql.a")
    run("ar", "qD", lib / "libgql.a", heap)
    whole = ["-Wl,--whole-archive", archive, "-Wl,--no-whole-archive", heap]
    script = f"-Wl,--version-script={BINDINGS / 'c' / 'exports.map'}"
    hardened = ["-Wl,-z,relro", "-Wl,-z,now", "-Wl,-z,noexecstack", "-Wl,--build-id=sha1", "-Wl,--strip-all"]
    run(CC, "-shared", "-o", lib / SHARED, *whole, f"-Wl,-soname,{SHARED}", "-Wl,-z,defs", *hardened, script)
    named = lib / "libgql.so"
    named.unlink(missing_ok=True)
    named.symlink_to(SHARED)
    heap.unlink()


def node_headers():
    """The folder of Node's headers, or None."""
    if shutil.which("node") is None:
        return None
    asked = subprocess.run(["node", "-p", "process.execPath"], capture_output=True, text=True, check=False).stdout.strip()
    place = pathlib.Path(asked).resolve().parent.parent / "include" / "node"
    return place if (place / "node_api.h").is_file() else None


def compile_node(headers, lib, to):
    """The module for Node, over `libgql.a` in the folder `lib`."""
    words = ["-std=c11", "-O2", "-Wall", "-Wextra", "-fPIC", "-shared", "-fvisibility=hidden", "-Wl,--build-id=sha1", "-Wl,-z,now", "-Wl,--strip-all"]
    run(CC, *words, *same_paths(BINDINGS, lib), "-I", headers, BINDINGS / "node" / "gql_node.c", lib / "libgql.a", "-o", to)
