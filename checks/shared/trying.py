"""Runs a program on many inputs, as the checks do that give it some."""
import pathlib
import re
import resource
import subprocess
import tempfile

ROOT = pathlib.Path(__file__).resolve().parent.parent.parent

# What a built program may take of address space: so much, and so much for each byte of its input.
ROOM = 128 * 1024 * 1024
ROOM_A_BYTE = 128

# In seconds; it only ends a program that would not end by itself.
PATIENCE = 120


def built(program):
    """The program as the gate has built it, if it was built after the last change to any crate."""
    path = ROOT / "crates" / program / "out" / program
    if not path.is_file():
        return None
    sources = [ROOT / "crates.txt", *(ROOT / "crates").glob("*/src/*"), *(ROOT / "crates").glob("*/specs/**/*")]
    last = max(source.stat().st_mtime for source in sources)
    return path if path.stat().st_mtime >= last else None


def try_cases(program, words, cases):
    """The status of each case by its name, and the names of those that wrote what they should.

    The words are what the program is given besides its input, with blanks between them. A case is its name, its input in bytes, and what the program should write, or None where that is not asked. The program
    that the gate has built is run; where there is none, `rt try` builds one without a proof. A case that did not run has no
    status.
    """
    path = built(program)
    return run_cases(path, words, cases) if path else rt_try_cases(program, words, cases)


def run_cases(path, words, cases):
    """The same of a program that is built, with room that grows with the input alone."""
    statuses, as_wanted = {}, set()
    for name, text, wanted in cases:
        room = ROOM + ROOM_A_BYTE * len(text)
        run = subprocess.run(
            [path, *words.split()],
            input=text,
            capture_output=True,
            check=False,
            timeout=PATIENCE,
            preexec_fn=lambda room=room: resource.setrlimit(resource.RLIMIT_AS, (room, room)),
        )
        if run.returncode >= 0 and not run.stderr:
            statuses[name] = run.returncode
        if wanted is not None and run.stdout == wanted.encode("utf-8"):
            as_wanted.add(name)
    return statuses, as_wanted


def rt_try_cases(program, words, cases):
    """The same of the program under `rt try`, which runs slowly."""
    with tempfile.TemporaryDirectory() as folder:
        for name, text, wanted in cases:
            (pathlib.Path(folder) / name).write_bytes(text)
            if wanted is not None:
                (pathlib.Path(folder) / f"{name}.stdout").write_text(wanted, encoding="utf-8")
        command = ["rt", "try", "--cases", folder, "--", *words.split()]
        run = subprocess.run(command, cwd=ROOT / "crates" / program, capture_output=True, text=True, check=False)
    said = run.stdout + run.stderr
    statuses = {name: int(status) for name, status in re.findall(r"(?m)^case=(\S+) .*?status=(\d+)", said)}
    return statuses, set(re.findall(r"(?m)^case=(\S+) .*?output=expected", said))
