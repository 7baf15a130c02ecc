"""Makes the WebAssembly module of the proved library: what rattle lowers for x86-64 is compiled for WebAssembly, linked with the allocator,
and brought to a memory of 32 bits by wasm-opt. bindings/build calls `build`, for a module that is fast and for one that is small."""

import os
import pathlib
import re
import shutil
import subprocess
import sys

HERE = pathlib.Path(__file__).resolve().parent
SOURCES = ["heap", "helpers", "memory", "calls"]
# Queries nested 500 deep take most of it.
STACK = 2 << 20
C_WORDS = ["--target=wasm64-unknown-unknown", "-mcpu=lime1", "--no-default-config", "-O2", "-fno-builtin", "-ffreestanding", "-Wall", "-Wextra"]
FEATURES = ["memory64", "bulk-memory", "sign-ext", "mutable-globals", "nontrapping-float-to-int"]

# How clang and wasm-opt are told to make the two.
FAST, SMALL = ("-O3", "-O3"), ("-Os", "-Oz")

# What stands for the kit's clang: it keeps the library's module, compiles it for WebAssembly, and leaves all else to that one.
CLANG = """\
#!/bin/sh
case " $* " in
  *" -x ir module.bc "*) cp module.bc {kept} && exec {python} {here}/to_wasm64.py {kit} module.bc module.o -O3 ;;
  *) exec {kit}/toolchain/bin/clang "$@" ;;
esac
"""


def wasm_opt():
    """The command that lowers a module to a memory of 32 bits; None where it is not here."""
    return shutil.which(os.environ.get("WASM_OPT", "wasm-opt"))


def run(*words, **how):
    subprocess.run([str(word) for word in words], check=True, **how)


def make_toolchain(kit, folder):
    """A folder in the place of the kit's toolchain, which compiles the library's module for WebAssembly."""
    (folder / "bin").mkdir(parents=True, exist_ok=True)
    clang = folder / "bin" / "clang"
    clang.write_text(CLANG.format(python=sys.executable, here=HERE, kit=kit, kept=folder / "library.bc"), encoding="utf-8")
    clang.chmod(0o755)
    links = {folder / "lib": kit / "toolchain" / "lib"}
    links |= {folder / "bin" / name: kit / "toolchain" / "bin" / name for name in ("ld.lld", "llvm-ar", "rattle-x64")}
    for link, to in links.items():
        link.unlink(missing_ok=True)
        link.symlink_to(to)
    return folder


def exports():
    """The names of the calls that JavaScript makes."""
    return sorted(set(re.findall(r"^\w+ (js_\w+)\(", (HERE / "calls.c").read_text(encoding="utf-8"), re.MULTILINE)))


def link(kit, archive, folder, to):
    """Links the library's objects with the allocator and the calls."""
    objects = []
    for name in SOURCES:
        objects.append(folder / f"{name}.o")
        include = ["-isystem", HERE / "freestanding"]
        run(kit / "toolchain" / "bin" / "clang", *C_WORDS, *include, "-c", HERE / f"{name}.c", "-o", objects[-1])
    words = ["-flavor", "wasm", "-mwasm64", "--no-entry", "--stack-first", "-z", f"stack-size={STACK}", "--gc-sections", "--strip-all", "--threads=1"]
    words += [f"--export={name}" for name in exports()]
    # The linker goes by the name that it is called by.
    run("wasm-ld", *words, "-o", to, *objects, archive, executable=kit / "toolchain" / "bin" / "ld.lld")


def lower(wide, to, level):
    """The same module with a memory of 32 bits, which all browsers and every Node have."""
    words = [f"--enable-{name}" for name in FEATURES]
    run(wasm_opt(), *words, "--memory64-lowering", level, wide, "-o", to)


def build(kit, archive, folder, to, how=FAST):
    """Makes the module of an archive that the toolchain in `folder` compiled, or of the same library compiled otherwise."""
    level, lowered_level = how
    wide, made = folder / "wide.wasm", to.with_suffix(".wasm.new")
    if how != FAST:
        archive = folder / "library.o"
        run(sys.executable, HERE / "to_wasm64.py", kit, folder / "toolchain" / "library.bc", archive, level)
    link(kit, archive, folder, wide)
    lower(wide, made, lowered_level)
    made.replace(to)
