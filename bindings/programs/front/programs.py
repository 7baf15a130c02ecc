"""Running the proved program, and what the front ends with by itself."""

import os
import subprocess
import sys

# As the program has them: nothing is wrong, words, a source and a sink that fail.
DONE, MISUSED, UNREADABLE, UNWRITABLE = 0, 2, 4, 5


class Proved:
    """The proved program `gql`."""

    def __init__(self, path):
        self.path = path

    def run(self, word, request):
        """The status, and what is written."""
        made = subprocess.run([self.path, word], input=request, stdout=subprocess.PIPE, check=False)
        return made.returncode if made.returncode >= 0 else 128 - made.returncode, made.stdout


def end(status, text):
    print(f"gql: {text}", file=sys.stderr)
    sys.exit(status)


def read(name):
    """The bytes of a file; of standard input where the name is `-`. Ends the program where it cannot be read."""
    try:
        if name == "-":
            return sys.stdin.buffer.read()
        with open(name, "rb") as file:
            return file.read()
    except OSError as error:
        return end(UNREADABLE, f"{name}: {error.strerror}")


def write(content):
    """Writes bytes to standard output; gives whether they were taken."""
    try:
        sys.stdout.buffer.write(content)
        sys.stdout.buffer.flush()
    except OSError:
        # Python would try once more at its end.
        os.dup2(os.open(os.devnull, os.O_WRONLY), sys.stdout.fileno())
        return False
    return True
