#!/usr/bin/env python3
"""Gives the programs what nobody should send: cut and changed requests, nesting at and past each limit, and large texts.

Each must end with a status of its own, and with the one wanted where that can be told apart from the program: a request
that is no JSON text is refused, one that is whole is answered. A program that the gate has built is given room that grows
with its input alone; it is also given a source and a sink that fail, and less and less memory. `checks/hostile.py all` tries
every request, and so does a run over programs that are built."""
import os
import resource
import subprocess
import sys

from shared.hostile_requests import ANSWERED, REFUSED, REQUESTS, changed, cut, fields, large, many_fields, of_some_size
from shared.hostile_texts import texts
from shared.trying import PATIENCE, built, try_cases

NO_MEMORY, SOURCE_FAILED, SINK_FAILED = 3, 4, 5

# Programs run slowly under `rt try`: without the word `all`, one of so many is tried.
STEP = 29

# The room for data that the least run is given, in bytes; by how much it is made larger at a time; how often in a row it has to
# suffice.
LEAST_ROOM = 1 << 17
ROOM_STEP = 1 << 17
ENOUGH = 4


def engine_cases(step):
    """Name, bytes and wanted statuses of each request, of the cut and changed ones each `step`-th."""
    yield from cut(step)
    yield from changed(step)
    # `rt try` cuts an output of more than a MiB off.
    count = 100_000 if built("gql_program") else 50_000
    yield from large(count)
    yield from texts(count)


def syntax_cases():
    """The same of documents."""
    for depth, wanted in [(500, ANSWERED), (501, REFUSED)]:
        yield f"sets{depth}", b"{a" * depth + b"}" * depth, [wanted]
        yield f"lists{depth}", b"{a(b:" + b"[" * (depth - 1) + b"]" * (depth - 1) + b")}", [wanted]
        yield f"types{depth}", b"query($a:" + b"[" * depth + b"T" + b"]" * depth + b"){a}", [wanted]
    yield "open", b"{" * 100_000, [REFUSED]
    yield "closed", b"}" * 100_000, [REFUSED]
    yield "spread", b"{" + b"...a" * 100_000 + b"}", [ANSWERED]
    yield "commas", b"{a" + b"," * 1_000_000 + b"}", [ANSWERED]
    yield "comment", b"{a#" + b"x" * 1_000_000 + b"\n}", [ANSWERED]
    yield "quotes", b'{a(b:"' + b'\\"' * 100_000 + b'")}', [ANSWERED]
    yield "open-block", b'{a(b:"""' + b"\n " * 100_000, [REFUSED]
    yield "no-text", b"\xff", [REFUSED]
    yield "fields", ("{" + fields(100_000) + "}").encode(), [ANSWERED]


def gateway_cases():
    """The same of requests to a gateway: as many root fields as it takes, and one more."""
    count = 100_000 if built("gql_gateway_program") else 10_000
    yield "root-fields", many_fields(count), [ANSWERED]
    yield "more-root-fields", many_fields(100_001), [REFUSED]


def requests_failed(step):
    """How many requests passed, and a line for each that did not."""
    passed, lines = 0, []
    programs = [
        ("gql_program", "answer", list(engine_cases(step))),
        ("gql_syntax_program", "document", list(syntax_cases())),
        ("gql_gateway_program", "", list(gateway_cases())),
    ]
    for program, word, cases in programs:
        found, _as_wanted = try_cases(program, word, [(name, text, None) for name, text, _statuses in cases])
        for name, _text, wanted in cases:
            if found.get(name) in wanted:
                passed += 1
            else:
                lines.append(f"{name}: {found.get(name, 'did not run')}, wanted {wanted}")
    return passed, lines


def run(path, text, room=None, **streams):
    """The status and the output of the program, where it may take so much memory for data; the stack is not limited."""
    limit = (lambda: resource.setrlimit(resource.RLIMIT_DATA, (room, room))) if room else None
    streams = {"stdout": subprocess.PIPE} | ({} if text is None else {"input": text}) | streams
    made = subprocess.run([path, "answer"], stderr=subprocess.PIPE, check=False, timeout=PATIENCE, preexec_fn=limit, **streams)
    return made.returncode, made.stdout


def devices_failed(path):
    """The same of a source that cannot be read and of a sink that is full."""
    folder = os.open("/", os.O_RDONLY)
    unread = run(path, None, stdin=folder)
    os.close(folder)
    with open("/dev/full", "wb") as full:
        unwritten, _nothing = run(path, REQUESTS[0].encode(), stdout=full)
    lines = [f"a source that fails: {unread}"] if unread != (SOURCE_FAILED, b"") else []
    lines += [f"a sink that fails: {unwritten}"] if unwritten != SINK_FAILED else []
    return 2 - len(lines), lines


def memory_failed(path):
    """The same of each room in which the program begins, up to one that suffices: it writes nothing, or the answer."""
    passed, lines = 0, []
    for name, request in of_some_size():
        whole = run(path, request)
        room, sufficed, has_begun = LEAST_ROOM, 0, False
        while sufficed < ENOUGH:
            made = run(path, request, room)
            # In less room the system ends the program before it begins, or refuses its words.
            has_begun |= made in (whole, (NO_MEMORY, b""))
            sufficed = sufficed + 1 if made == whole else 0
            if has_begun and made not in (whole, (NO_MEMORY, b"")):
                lines.append(f"{name} in {room} bytes: {made}")
            passed += has_begun
            room += ROOM_STEP
    return passed - len(lines), lines


def main():
    path = built("gql_program")
    found = [requests_failed(1 if sys.argv[1:] == ["all"] or path else STEP)]
    if path:
        found += [devices_failed(path), memory_failed(path)]
    passed, lines = sum(it for it, _ in found), [line for _, some in found for line in some]
    for line in lines:
        print(f"hostile: {line}")
    print(f"hostile: {passed} passed, {len(lines)} failed")
    return 1 if lines or not passed else 0


if __name__ == "__main__":
    sys.exit(main())
