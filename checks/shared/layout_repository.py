"""The form of the repository: the HANDLES line, and the wrong bodies of each crate."""
import re

from shared.sources import ROOT, crates, shown

MOST_EDITS = 3


def faults():
    if (ROOT / "HANDLES").read_text() != "Handles allowed: none.\n":
        yield "HANDLES does not hold its one line"
    yield from wrong_bodies()


def wrong_bodies():
    """A crate has few wrong bodies that the gate tries; the others stand in wrong-bodies/. Names are words with underscores."""
    names = {crate.name for crate in crates()}
    for crate in crates():
        edits = sorted((crate / "must-fail").glob("*.edit"))
        if len(edits) > MOST_EDITS:
            yield f"{shown(crate)}/must-fail: {len(edits)} edits, at most {MOST_EDITS} (the others go to wrong-bodies/{crate.name})"
        yield from (fault for edit in edits for fault in edit_name(edit))
    for edit in sorted((ROOT / "wrong-bodies").glob("*/*.edit")):
        yield from edit_name(edit)
        if edit.parent.name not in names:
            yield f"{shown(edit)}: there is no crate {edit.parent.name}"


def edit_name(edit):
    if not re.fullmatch(r"[a-z0-9_]+", edit.stem):
        yield f"{shown(edit)}: its name has more than small letters, digits and underscores"
