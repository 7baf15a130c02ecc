"""The list of crates: what each stands on, and which crates of the toolchain are in what is shipped."""

import pathlib
import re

ROOT = pathlib.Path(__file__).resolve().parent.parent.parent


def libraries():
    """The libraries of each crate, by the list of crates; those of the toolchain are not in it."""
    lines = [line.split("#")[0] for line in (ROOT / "crates.txt").read_text(encoding="utf-8").splitlines()]
    rows = [line.partition(":") for line in lines if ":" in line]
    return {name.split()[0]: below.split() for name, _, below in rows}


def below(crate, needs):
    """The crates of the repository that this one stands on."""
    found = []
    for name in needs[crate]:
        if name in needs:
            found += [it for it in [*below(name, needs), name] if it not in found]
    return found


def of_toolchain(shipped):
    """The crates of the toolchain, beside its standard library, that some crates stand on, by all that these stand on."""
    needs = libraries()
    reached = {name for crate in shipped for name in [crate, *below(crate, needs)]}
    return sorted({name for crate in reached for name in needs[crate] if name not in needs and not re.match(r"(std|core)(_|$)", name)})
