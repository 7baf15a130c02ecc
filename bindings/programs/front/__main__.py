"""The words of `gql` that a shell does not work out: `check` of files, `answer` of parts, and `serve`."""

import os
import runpy
import sys

from answering import answer
from checking import check
from programs import Proved


def serve(here, words):
    """Starts the mock server, which comes with the programs."""
    os.environ.setdefault("SUNWAKET_LIBRARY", library_of(here))
    sys.path.insert(0, os.path.join(here, "share", "sunwaket", "python"))
    sys.argv[1:] = words
    runpy.run_module("sunwaket.mock", run_name="__main__", alter_sys=True)


def library_of(here):
    """Where the shared library lies that came with the programs."""
    folders = [os.path.join(here, "lib"), os.path.join(here, "lib", "x86_64-linux-gnu")]
    return next((path for path in (os.path.join(folder, "libgql.so.0") for folder in folders) if os.path.exists(path)), "libgql.so.0")


def main(here, word, *words):
    if word == "serve":
        return serve(here, words)
    proved = Proved(os.path.join(here, "libexec", "sunwaket", "gql"))
    return answer(proved, words) if word == "answer" else check(proved, words)


if __name__ == "__main__":
    try:
        sys.exit(main(*sys.argv[1:]))
    except KeyboardInterrupt:
        sys.exit(130)
