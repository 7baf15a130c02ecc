#!/usr/bin/env python3
"""Checks that specs/ holds what is promised to users and specs/bridge/ the other definitions: a definition of specs/ stands in the
closure of the public clauses and the laws (shared/closure.py), and one of specs/bridge/ does not. The files in specs/formers/ stand where
the prover looks for them. A name that can't be told from its text is a fault too."""
import sys

from shared.closure import Graph
from shared.sources import shown, tell


def faults():
    graph = Graph()
    promised = graph.closure(graph.roots())
    for path, file in graph.definitions.files.items():
        part = file.module.partition(".")[0]
        strays = [made for number, made in enumerate(file.definitions) if (("definition", path, number) in promised) == (part == "bridge")]
        for made in [] if part == "formers" else strays:
            where = "is promised to users, and stands in specs/bridge/" if part == "bridge" else "is in no promise to users; it belongs into specs/bridge/"
            yield f"{shown(path)}:{file.text.count(chr(10), 0, made.start) + 1}: `{made.names[0]}` {where}"
    yield from (f"{shown(path)}:{line}: what `{name}` stands for can't be told" for path, line, name in graph.unknown)


if __name__ == "__main__":
    sys.exit(tell("bridge", list(faults())))
