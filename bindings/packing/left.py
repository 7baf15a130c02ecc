"""What a gate has left to be packed: programs, the archive of the C library, the sums of the libraries, and what is known of the run."""

import dataclasses
import hashlib
import pathlib
import re
import shutil
import subprocess
import sys

ROOT = pathlib.Path(__file__).resolve().parent.parent.parent
CRATES = ROOT / "crates"
HELP = ROOT / "bindings" / "programs" / "help"

# The status with which bindings/build, and bindings/release, say that something is not here.
LACKING = 3

# What .ci/run notes of its last run.
GATE = ROOT / "bindings" / "out" / "gate.txt"
PASSED = re.compile(r"\d+ passed, 0 failed")


class Lacking(Exception):
    """Something to pack is not here."""


@dataclasses.dataclass
class Left:
    """Programs by their users' names, the archive of what C calls, and what is known of how they came about."""

    programs: dict
    archive: pathlib.Path
    sums: dict
    commit: str
    when: int
    kit: str
    gate: str
    doubts: list

    @property
    def is_proved(self):
        return not self.doubts


def asked(*words):
    """What a command writes, or nothing where it is not here or fails."""
    if shutil.which(words[0]) is None:
        return ""
    return subprocess.run(words, cwd=ROOT, capture_output=True, text=True, check=False).stdout.strip()


def program_names():
    """The crate of each program that users have, by its users' name: those that have a page of help."""
    names = {page.stem: f"{page.stem}_program" for page in sorted(HELP.glob("*.txt"))}
    return {name: crate for name, crate in names.items() if (CRATES / crate).is_dir()}


def programs_in(folder):
    """The programs as the gate has left them, or those of a folder, under the name of their crate or of their users."""
    found = {}
    for name, crate in program_names().items():
        places = [CRATES / crate / "out" / crate] if folder is None else [folder / crate, folder / name]
        place = next((place for place in places if place.is_file()), None)
        if place is None:
            raise Lacking(f"the program {crate} is not built: run `rt ci`")
        found[name] = place
    return found


def sum_of(path):
    """The SHA-256 of a file, or of a folder's files with their names."""
    if path.is_file():
        return hashlib.sha256(path.read_bytes()).hexdigest()
    total = hashlib.sha256()
    for file in sorted(path.rglob("*")):
        if file.is_file():
            total.update(f"{file.relative_to(path).as_posix()} {sum_of(file)}\n".encode())
    return total.hexdigest()


def library_sums():
    """The sum of each library that the gate has left, by its crate."""
    places = {crate.name: crate / "out" / "rlib" / f"{crate.name}.rlib" for crate in sorted(CRATES.iterdir())}
    return {name: sum_of(place) for name, place in places.items() if place.exists()}


def gate_of(commit):
    """What the gate said last at a commit, and of which kit it was; nothing where no such run is noted."""
    lines = GATE.read_text(encoding="utf-8").splitlines() if GATE.is_file() else []
    noted = dict(line.partition(": ")[::2] for line in lines)
    return noted if noted.get("commit") == commit else {}


def built_archive():
    """The archive of what C calls, which bindings/build makes anew where its sources have changed."""
    made = subprocess.run([sys.executable, ROOT / "bindings" / "build"], capture_output=True, text=True, check=False)
    if made.returncode == LACKING:
        raise Lacking(made.stdout.strip())
    if made.returncode:
        raise SystemExit(f"bindings/build failed\n{made.stderr}")
    return ROOT / "bindings" / "out" / "lib" / "libgql_c.a"


def what_is_left(folder=None, archive=None):
    """All of it. What is handed in, changed or not known to be proved is a doubt."""
    commit, when = asked("git", "rev-parse", "HEAD"), asked("git", "log", "-1", "--format=%ct")
    if not commit:
        raise Lacking("this is no clone of the repository, whose commit a release names")
    gate, doubts = gate_of(commit), []
    if asked("git", "status", "--porcelain"):
        doubts.append("files differ from the commit")
    if not PASSED.search(gate.get("last line", "")):
        doubts.append("no run of the gate is noted that passed at this commit")
    if folder is not None or archive is not None:
        doubts.append("programs or the library were handed in, and not taken from where the gate leaves them")
    programs, kit = programs_in(folder), gate.get("kit") or asked("rt", "version") or "not known"
    return Left(programs, archive or built_archive(), library_sums(), commit, int(when), kit, gate.get("last line", "not known"), doubts)
