#!/usr/bin/env python3
"""Refuses the built program each piece of memory that it asks for, one in each run: it must say so and write nothing, or do as if
nothing had been refused.

The worked requests are answered and checked: errors and nulls, introspection that is refused, fragments that spread twice, a request
with everything, and a document with faults. Some of the runs are done once more under valgrind, which sees that no memory is read that
is not the program's, and that none is left. Needs a program that the gate has built, and a C compiler as `cc`; where one of them is
missing, it says so and passes."""
import json
import os
import pathlib
import shutil
import subprocess
import sys
import tempfile

from shared.trying import PATIENCE, ROOT, built

# Where memory runs out, and where it runs out before the program has its words.
NO_MEMORY, NO_WORDS = 3, 7

# Every so many runs are watched. The functions of refusing.c stay in the place of the C library's then.
STEP = 199
WATCHED = ["valgrind", "--quiet", "--error-exitcode=9", "--leak-check=full", "--show-leak-kinds=all", "--errors-for-leak-kinds=all"]
WATCHED += ["--soname-synonyms=somalloc=nouserintercepts"]

NAMES = [
    "first",
    "a-failed-item-nulls-itself",
    "introspection-through-a-fragment-too-deep",
    "introspection-too-deep",
    "thirty-fragments-that-spread-twice",
    "a-request-with-everything",
    "fields-that-are-not-defined",
]


class Refusing:
    """The program, and a library that refuses it memory."""

    def __init__(self, path, folder):
        self.path, self.library, self.counted = path, folder / "refusing.so", folder / "counted"
        source = ROOT / "checks" / "shared" / "refusing.c"
        subprocess.run(["cc", "-O1", "-shared", "-fPIC", "-o", self.library, source, "-ldl"], check=True)
        self.runs = self.watched = 0

    def run(self, words, text, refused, watching=()):
        """The status and the output of the program that is refused the piece of this number, and how many pieces it asked for."""
        self.counted.unlink(missing_ok=True)
        told = {"LD_PRELOAD": str(self.library), "PROGRAM": self.path.name, "COUNTED": str(self.counted), "REFUSED": str(refused)}
        command = [*watching, self.path, *words]
        made = subprocess.run(command, input=text, capture_output=True, check=False, timeout=PATIENCE, env=os.environ | told)
        asked = int(self.counted.read_text(encoding="ascii")) if self.counted.exists() else 0
        return (made.returncode, made.stdout), asked

    def refusals(self, words, text):
        """A line for each run that went wrong, of those in which each piece is refused in turn."""
        whole, asked = self.run(words, text, 0)
        for number in range(1, asked + 1):
            self.runs += 1
            made, _asked = self.run(words, text, number)
            if made not in (whole, (NO_MEMORY, b""), (NO_WORDS, b"")):
                yield f"{' '.join(words)}, piece {number} of {asked}: {made}"
            elif self.runs % STEP == 0 and shutil.which("valgrind"):
                self.watched += 1
                seen, _asked = self.run(words, text, number, WATCHED)
                if seen != made:
                    yield f"{' '.join(words)}, piece {number} of {asked}, under valgrind: {seen}"


def main():
    path = built("gql_program")
    if not path or not shutil.which("cc"):
        print("refused_memory: there is no built program, or no C compiler: nothing was tried")
        return 0
    rows = {row["name"]: row["input"].encode() for row in json.loads((ROOT / "checks" / "rows.json").read_text(encoding="utf-8"))}
    with tempfile.TemporaryDirectory() as folder:
        refusing = Refusing(path, pathlib.Path(folder))
        lines = [f"{name}: {line}" for name in NAMES for word in ("answer", "check") for line in refusing.refusals([word], rows[name])]
        lines += refusing.refusals(["selftest", "10"], b"")
    for line in lines:
        print(f"refused_memory: {line}")
    print(f"refused_memory: {refusing.runs - len(lines)} passed, {len(lines)} failed; {refusing.watched} of them under valgrind too")
    return 1 if lines or not refusing.runs else 0


if __name__ == "__main__":
    sys.exit(main())
