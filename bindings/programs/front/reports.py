"""Reports of what is wrong with texts, for a terminal: in colours, each place with its line and a caret below."""

import re
import shutil
import unicodedata

# A place in a report: whose text, line, column, and what is there.
PLACE = re.compile(r"(schema|query)\.graphql:(\d+):(\d+): (.*)")
LINE_END = re.compile("\r\n|\n|\r")

RED, GREEN, BOLD, DIM, NONE = "\x1b[1;31m", "\x1b[1;32m", "\x1b[1m", "\x1b[2m", "\x1b[0m"
CUT = "…"


class Source:
    """A text that is checked, and the name that people know it by."""

    def __init__(self, name, text):
        self.name, self.lines = name, LINE_END.split(text)

    def line(self, number):
        """The line of a number, counted from 1; empty where there is none."""
        return self.lines[number - 1] if number <= len(self.lines) else ""


def renamed(written, sources):
    """What the program wrote, with the names of files that people know."""
    for kind, source in sources.items():
        name = source.name.encode("utf-8", "surrogateescape")
        written = re.sub(rb"(?m)^%s\.graphql(?=:\d+:\d+: )" % kind.encode(), lambda _, name=name: name, written)
    return written


def shown(report, sources):
    """A report as a terminal shows it."""
    lines = [line for written in report.splitlines() for line in shown_line(visible(written), sources)]
    return "".join(f"{line}\n" for line in lines)


def shown_line(line, sources):
    """A line of a report; one that tells a place is followed by what stands there."""
    place = PLACE.fullmatch(line)
    if line.startswith("Error: "):
        yield f"{RED}Error{NONE}{BOLD}:{line[6:]}{NONE}"
    elif line == "ok":
        yield f"{GREEN}ok{NONE}"
    elif place is None or place[1] not in sources:
        yield line
    else:
        source, number, column = sources[place[1]], int(place[2]), int(place[3])
        yield f"{BOLD}{visible(source.name)}:{number}:{column}:{NONE} {place[4]}"
        yield from marked(source.line(number), number, column)


def marked(line, number, column):
    """A line of a text, with its number, and a caret below the character of a column, counted from 1."""
    gutter = f"{number:>5} | "
    start, window = window_at(visible(line), column - 1, shutil.get_terminal_size().columns - len(gutter) - 1)
    before = window[: column - 1 - start]
    indent = "".join("\t" if it == "\t" else " " * width(it) for it in before)
    yield f"{DIM}{gutter}{NONE}{window}"
    yield f"{DIM}{' ' * (len(gutter) - 2)}| {NONE}{indent}{RED}^{NONE}"


def window_at(line, place, room):
    """What of a long line is shown: where it begins in the line, and its text. The place stands in it."""
    room = max(room, 20)
    if len(line) <= room:
        return 0, line
    start = min(max(place - room // 2, 0), len(line) - room)
    end = start + room
    head, tail = (CUT if start else line[start]), (CUT if end < len(line) else line[end - 1])
    return start, head + line[start + 1 : end - 1] + tail


def width(character):
    """How many columns of a terminal a character takes."""
    if unicodedata.combining(character):
        return 0
    return 2 if unicodedata.east_asian_width(character) in "WF" else 1


def visible(text):
    """A text without what a terminal would take as a command."""
    return "".join("\ufffd" if unicodedata.category(it) == "Cc" and it != "\t" else it for it in text)
