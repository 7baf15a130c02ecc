#!/usr/bin/env python3
"""Compiles a module that was lowered for x86-64 to an object for WebAssembly with pointers of 64 bits: to_wasm64.py KIT MODULE OBJECT LEVEL

Both machines have the same layouts of types, so that nothing in the module depends on the one that it was lowered for. What would, as a
function of x86-64 alone, is refused. On WebAssembly with pointers of 32 bits the same module would be wrong; wasm-opt makes that form of
the linked module."""

import pathlib
import re
import subprocess
import sys

LAYOUT = 'target datalayout = "e-m:e-p:64:64-p10:8:8-p20:8:8-i64:64-i128:128-n32:64-S128-ni:1:10:20"\n'
TRIPLE = 'target triple = "wasm64-unknown-unknown"\n'
OF_X86 = re.compile(r' "(?:probe-stack|stack-probe-size|target-cpu|target-features|frame-pointer)"="[^"]*"')
# No libc is linked, so that a loop must not become a call of one.
ALONE = '{ "no-builtin-bcmp" "no-builtin-memcmp" "no-builtin-strlen" '
REFUSED = re.compile(r'@llvm\.x86\.|asm sideeffect "[^"]')

SAME = ["--no-default-config", "-no-canonical-prefixes", "-fno-crash-diagnostics"]
WORDS = ["--target=wasm64-unknown-unknown", "-mcpu=lime1", *SAME, "-Wno-override-module", "-ffunction-sections", "-fdata-sections"]
PASSES = ["expand-div-rem-bits=64", "expand-fp-convert-bits=64", "trap-unreachable", "disable-machine-licm", "disable-postra-machine-licm"]


def moved(line):
    """A line of the module, for the other machine."""
    if line.startswith("target datalayout"):
        return LAYOUT
    if line.startswith("target triple"):
        return TRIPLE
    if line.startswith("attributes #"):
        return OF_X86.sub("", line).replace("{ ", ALONE, 1)
    if REFUSED.search(line):
        sys.exit(f"to_wasm64: this is for x86-64 alone: {line.strip()}")
    return line


def compile_text(kit, text, to, level):
    """Compiles the text of a module for x86-64, optimized so far."""
    other = text.with_suffix(".wasm64.ll")
    with text.open(encoding="utf-8", errors="surrogateescape") as lines, other.open("w", encoding="utf-8", errors="surrogateescape") as out:
        out.writelines(moved(line) for line in lines)
    passes = [word for name in [*PASSES, "sink-common-insts=false"] for word in ("-mllvm", f"-{name}")]
    subprocess.run([f"{kit}/toolchain/bin/clang", *WORDS, *passes, level, "-c", "-x", "ir", other, "-o", to], check=True)
    other.unlink()


def main(kit, module, to, level):
    text = pathlib.Path(module).with_suffix(".ll")
    words = ["--target=x86_64-unknown-linux-gnu", "--no-default-config", "-S", "-emit-llvm", "-Xclang", "-disable-llvm-passes"]
    subprocess.run([f"{kit}/toolchain/bin/clang", *words, "-x", "ir", module, "-o", text], check=True)
    compile_text(kit, text, to, level)
    text.unlink()


if __name__ == "__main__":
    main(*sys.argv[1:])
