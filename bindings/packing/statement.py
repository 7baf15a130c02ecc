"""PROVED.txt: what a release was built from, and whether that was proved."""

from .compiled import BINDINGS, VERSION
from .left import program_names, sum_of


def state_of(left):
    return "proved" if left.is_proved else f"NOT PROVED: {'; '.join(left.doubts)}"


def module_lines():
    """The sum of the WebAssembly module, where there is one."""
    module = BINDINGS / "node" / "sunwaket.wasm"
    if not module.is_file():
        return []
    return ["", "SHA-256 of the same calls as a WebAssembly module, which LLVM and binaryen made of what was proved:", f"{sum_of(module)}  sunwaket.wasm"]


def statement(left):
    """The text of the statement."""
    crates = program_names()
    lines = [
        f"Sunwaket {VERSION}",
        "",
        f"state:   {state_of(left)}",
        f"commit:  {left.commit}",
        f"kit:     {left.kit}",
        f"gate:    {left.gate}",
        "",
        "PROVED.md beside this file says what that means, and what is not proved.",
        "",
        "SHA-256 of the programs, as the gate has left them:",
        *(f"{sum_of(place)}  {name} ({crates[name]})" for name, place in left.programs.items()),
        "",
        "SHA-256 of the proved calls that libgql holds, before a C compiler added their allocator:",
        f"{sum_of(left.archive)}  libgql_c.a",
        *module_lines(),
        "",
        "SHA-256 of each crate's library, over the sums and names of its files:",
        *(f"{total}  {crate}" for crate, total in left.sums.items()),
    ]
    return "\n".join(lines if left.sums else lines[:-2]) + "\n"
