"""Requests as the proved program reads them, made of parts."""

import json
import re
import sys

# The refusal of a request for what stands at a byte of it.
FAULT = re.compile(rb'^\{"errors":\[\{"message":"request: (.*) at byte (\d+)"\}\]\}$')

ESCAPED = re.compile(rb'["\\\x00-\x1f]')
LENGTH_ESCAPED = len(b"\\u0000")


def quoted(text):
    """The JSON text of bytes. What is no UTF-8 stays as it is, for the program to refuse."""
    return b'"' + ESCAPED.sub(lambda found: b"\\u%04x" % found[0][0], text) + b'"'


def place_in_text(text, place):
    """The byte of a text that stands at a byte of its JSON text."""
    at = 1
    for number, byte in enumerate(text):
        at += LENGTH_ESCAPED if ESCAPED.match(bytes([byte])) else 1
        if at > place:
            return number
    return len(text)


def fault_in(content):
    """What keeps bytes from being one JSON value, for people, or None. Numbers and depth are the program's to judge."""
    try:
        json.loads(content)
    except json.JSONDecodeError as error:
        return f"{error.lineno}:{error.colno}: no JSON: {error.msg}"
    except UnicodeDecodeError as error:
        return f" no UTF-8 at byte {error.start}"
    except (RecursionError, ValueError):
        return None
    return None


class Request:
    """A request that grows by members and knows where in it each stands, or one that is whole as it is given."""

    def __init__(self, given=None):
        self.given, self.content, self.places = given, b"{", []

    def add_json(self, member, content, name, text=None):
        """A member's JSON, as it stands in the file or the words of this name; the text, where it is that of one."""
        before = (b"" if self.content == b"{" else b",") + quoted(member.encode()) + b":"
        start = len(self.content) + len(before)
        self.content += before + content
        self.places.append((start, start + len(content), name, text))

    def add_text(self, member, text, name):
        """A member that is a text."""
        self.add_json(member, quoted(text), name, text)

    def whole(self):
        """The bytes of the request."""
        return self.content + b"}" if self.given is None else self.given

    def place_of(self, place):
        """The name of what stands at a byte of the request, and the byte of it; None where that is no member's."""
        for start, end, name, text in self.places:
            if start <= place < end:
                return name, place - start if text is None else place_in_text(text, place - start)
        return None

    def tell_place(self, written):
        """Says on standard error in which file a fault of the request stands, which the program tells by the byte of the whole."""
        fault = FAULT.match(written.strip())
        found = self.place_of(int(fault[2])) if fault else None
        if found:
            print(f"gql: {found[0]}: {fault[1].decode(errors='replace')} at byte {found[1]}", file=sys.stderr)
