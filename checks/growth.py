#!/usr/bin/env python3
"""Counts what the built program does for hostile requests of two sizes: how its instructions grow from the first to the second, which is
twice as large, and how many it takes for each byte; and tries the second in room for data that grows with its bytes.

    checks/growth.py [ROW..]           fails where a row takes more than it says
    checks/growth.py --measure [ROW..] writes what each row takes

The rows and their bounds are in `shared/growth_rows.py`. Needs a program that the gate has built, and valgrind for instructions; it
says what it skips."""
import re
import resource
import shutil
import subprocess
import sys
import tempfile

from shared.growth_rows import ROWS
from shared.trying import PATIENCE, built

# The words that each program is given.
WORDS = {"gql_program": ["answer"], "gql_checker_program": []}

COUNT = ["valgrind", "--tool=callgrind", "--callgrind-out-file=/dev/null"]
COLLECTED = re.compile(r"Collected : (\d+)")

# The room for data that a run is given besides what a row says, and the step in which it is measured, in bytes.
ROOM = 1 << 20
STEP = 1 << 16


def instructions(command, text):
    """How many instructions the program executes for a request."""
    with tempfile.TemporaryFile() as file:
        file.write(text)
        file.seek(0)
        run = subprocess.run([*COUNT, *command], stdin=file, stdout=subprocess.DEVNULL, stderr=subprocess.PIPE, check=False)
    return int(COLLECTED.search(run.stderr.decode())[1])


def status(command, text, room):
    """The program's exit status where it may take so much memory for data; the stack is not limited."""
    limit = lambda: resource.setrlimit(resource.RLIMIT_DATA, (room, room))
    run = subprocess.run(command, input=text, stdout=subprocess.DEVNULL, stderr=subprocess.DEVNULL, check=False, timeout=PATIENCE, preexec_fn=limit)
    return run.returncode


def least_room(command, text, wanted):
    """The least room in which the program ends as it should, by halving."""
    least, most = 0, STEP
    while status(command, text, most) != wanted:
        least, most = most, 2 * most
    while most - least > STEP:
        middle = (least + most) // 2
        least, most = (least, middle) if status(command, text, middle) == wanted else (middle, most)
    return most


def faults(command, row, counts):
    """A line for each bound that a row breaks."""
    text = row.make(2 * row.size)
    if status(command, text, ROOM + row.memory * len(text)) != row.status:
        yield f"no status {row.status} in {row.memory} bytes of memory for each of {len(text)}"
    if not counts:
        return
    first, second = instructions(command, row.make(row.size)), instructions(command, text)
    if second > row.growth * first:
        yield f"{second} instructions at twice the size, where {first} grow by {row.growth} at most"
    if second > row.instructions * len(text):
        yield f"{second} instructions for {len(text)} bytes, where each may take {row.instructions}"


def measure(command, row):
    """What a row takes, on one line."""
    text = row.make(2 * row.size)
    first, second = instructions(command, row.make(row.size)), instructions(command, text)
    room = least_room(command, text, row.status)
    print(
        f"{row.name:28} {len(text):>9} bytes, {first / 1e6:8.1f} to {second / 1e6:8.1f} million instructions, {second / first:5.2f} times, "
        f"{second / len(text):8.0f} a byte, {room >> 10:>7} KiB of data, {max(0, room - ROOM) / len(text):6.0f} a byte"
    )


def main(words):
    commands = {program: [path, *words] for program, words in WORDS.items() if (path := built(program))}
    counts = shutil.which("valgrind") is not None
    if len(commands) < len(WORDS):
        print(f"growth: not built, and not tried: {', '.join(sorted(WORDS.keys() - commands.keys()))}")
    if not counts:
        print("growth: valgrind is not here: no instructions are counted")
    names = [word for word in words if not word.startswith("--")]
    rows = [row for row in ROWS if row.name in (names or [row.name]) and row.program in commands]
    if "--measure" in words:
        for row in rows:
            measure(commands[row.program], row)
        return 0
    lines = [f"{row.name}: {line}" for row in rows for line in faults(commands[row.program], row, counts)]
    for line in lines:
        print(f"growth: {line}")
    print(f"growth: {len(rows)} rows, {len(lines)} failed")
    return 1 if lines or (commands and not rows) else 0


if __name__ == "__main__":
    sys.exit(main(sys.argv[1:]))
