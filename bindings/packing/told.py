"""What goes with each package: its page, the licences, the statement of what was proved and what it means, the bill of materials."""

from .archives import Held, text
from .bill import bill, third_party_licences
from .compiled import BINDINGS, VERSION
from .statement import statement
from .symbols import glibc_age

ROOT = BINDINGS.parent
PAGES = BINDINGS / "packing" / "pages"


def page(name, left):
    """A package's page, with the version in place, and the glibc that the programs ask for."""
    age = glibc_age(*(place.read_bytes() for place in left.programs.values()))
    told = (PAGES / f"{name}.md").read_text(encoding="utf-8")
    return told.replace("@VERSION@", VERSION).replace("@GLIBC@", "{}.{}".format(*age))


def told(left):
    """The files that are alike in all packages, by name."""
    return {
        "LICENSE": Held((ROOT / "LICENSE").read_bytes()),
        "THIRD_PARTY_LICENSES.txt": text(third_party_licences()),
        "CHANGELOG.md": Held((ROOT / "CHANGELOG.md").read_bytes()),
        "PROVED.txt": text(statement(left)),
        "PROVED.md": text((ROOT / "docs" / "RELEASES.md").read_text(encoding="utf-8")),
        "sunwaket.spdx.json": text(bill(left)),
    }


def with_page(name, left, files):
    return {"README.md": text(page(name, left))} | files
