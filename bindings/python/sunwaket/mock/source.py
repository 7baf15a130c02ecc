"""The files that a mock server answers from: a schema, and data unless these are made up. Both are read anew when they change."""

import json
import os
import sys
import threading
from collections import OrderedDict

import sunwaket

from .. import _selections as selections
from .looked_up import LookedUp
from .made_up import MadeUp
from .schema_types import types_of

# How many checked queries are kept.
KEPT = 256


def stamp_of(path):
    """What changes when a file does; None where there is none."""
    try:
        found = os.stat(path)
    except OSError:
        return None
    return found.st_mtime_ns, found.st_size, found.st_ino


def with_failures(members, failures):
    """Data where each member of one of these names fails with its text: a copy, unless no name is to fail."""
    if not failures:
        return members
    if isinstance(members, list):
        return [with_failures(it, failures) for it in members]
    if not isinstance(members, dict):
        return members
    return {name: {"__error": failures[name]} if name in failures else with_failures(it, failures) for name, it in members.items()}


def told(errors):
    """Errors for people, a line each, with the place where there is one."""
    lines = []
    for error in errors:
        place = (error.get("locations") or [{}])[0]
        lines.append(f"{place.get('line', '')}:{place.get('column', '')}: {error['message']}".lstrip(":"))
    return lines


class Served:
    """A schema that was checked, its types, the data of the file, and the queries that were asked last."""

    def __init__(self, schema_text, data_text, settings):
        self.text = schema_text
        self.schema = sunwaket.Schema(schema_text)
        self.types = types_of(self.schema)
        self.settings = settings
        self.members = None if data_text is None else self.read(data_text)
        self.data = None if self.members is None else sunwaket.Data(self.members)
        self.queries, self.lock = OrderedDict(), threading.Lock()

    def read(self, text):
        """The members of the data file. Raises ValueError where it is no JSON object."""
        members = json.loads(text)
        if not isinstance(members, dict):
            raise ValueError("the data are no object")
        return with_failures(members, self.settings.failures)

    def query(self, text):
        """A checked query with its document: kept from earlier, or read now. Raises `sunwaket.QueryRefused`."""
        with self.lock:
            found = self.queries.get(text)
            if found:
                self.queries.move_to_end(text)
                return found
        made = self.schema.query(text), selections.read(text)
        with self.lock:
            self.queries[text] = made
            while len(self.queries) > KEPT:
                self.queries.popitem(last=False)
        return made

    def data_for(self, document, operation_name, variables):
        """The data for an operation: those of the file, with objects found by id, or data that are made up."""
        operation = document.operation(operation_name)
        if operation is None:
            return {}
        if self.members is None:
            made = MadeUp(self.types, document, self.settings.seed).root(operation)
            return with_failures(made, self.settings.failures)
        root = LookedUp(self.types, document, variables).root(operation, self.members)
        return self.data if root is self.members else root


class Source:
    """What is served at present: it follows the files, and keeps the last schema and data that were right."""

    def __init__(self, settings):
        self.settings, self.lock = settings, threading.Lock()
        self.stamps, self.served, self.faults = None, None, []

    def texts(self):
        """The texts of the files; that of the data is None where data are made up."""
        with open(self.settings.schema, encoding="utf-8") as file:
            schema_text = file.read()
        if self.settings.data is None:
            return schema_text, None
        with open(self.settings.data, encoding="utf-8") as file:
            return schema_text, file.read()

    def current(self):
        """What is served now, the files read anew if they changed. None where they never were right."""
        stamps = [stamp_of(path) for path in (self.settings.schema, self.settings.data) if path]
        with self.lock:
            if stamps != self.stamps:
                self.stamps = stamps
                self.load()
            return self.served

    def load(self):
        """Reads the files. Where something is wrong, what was served stays, and `faults` says what is wrong."""
        try:
            self.served, self.faults = Served(*self.texts(), self.settings), []
            return
        except sunwaket.SchemaRefused as refused:
            self.faults = [f"{self.settings.schema}:{line}" for line in told(refused.errors)]
        except (OSError, ValueError) as error:
            self.faults = [str(error)]
        for line in self.faults:
            print(line, file=sys.stderr, flush=True)
