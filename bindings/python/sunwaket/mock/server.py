"""The server: `/graphql` by GraphQL over HTTP, a page at `/`, and for the page `/status`, what is wrong with the files, and `/schema`, the text."""

import contextlib
import hashlib
import json
import pathlib
import socket
import threading
import time
from http.server import BaseHTTPRequestHandler, ThreadingHTTPServer
from urllib.parse import urlsplit

import sunwaket

from .. import _selections as selections
from ..http import JSON, Answer, Exchange, Fault, Request, Rules, answer
from .source import Source

# The engine takes at most two megabytes of a thread's stack, and the reading of queries recurs as deep as they are nested.
STACK = 32 << 20

# The page of the playground, which bindings/build makes. By this word in it the page knows that there is a server behind it.
PAGE = pathlib.Path(__file__).with_name("page.html")
ALONE, SERVED = b'<html lang="en">', b'<html lang="en" data-server>'


class MockServer(ThreadingHTTPServer):
    """A server over a schema and data."""

    daemon_threads = False
    request_queue_size = 128

    def __init__(self, settings):
        self.settings, self.source = settings, Source(settings)
        self.idle, self.lock, self.is_ending = set(), threading.Lock(), False
        threading.stack_size(STACK)
        super().__init__((settings.host, settings.port), Handler)

    def waits(self, connection, is_idle):
        """Notes whether a connection waits for its next request. One that would wait while the server ends is closed."""
        with self.lock:
            (self.idle.add if is_idle else self.idle.discard)(connection)
            if is_idle and self.is_ending:
                connection.shutdown(socket.SHUT_RD)

    def end(self):
        """Takes no further request, and lets those that run end."""
        with self.lock:
            self.is_ending = True
            for connection in self.idle:
                with contextlib.suppress(OSError):
                    connection.shutdown(socket.SHUT_RD)
        self.shutdown()

    @property
    def address(self):
        """Where the page is."""
        return f"http://{self.settings.host}:{self.server_address[1]}/"


def executed(query, data, name, variables, introspection):
    """The response, made with handles of this thread's own, so that several threads execute at once."""
    asked = {"operation_name": name, "variables": variables, "introspection": introspection}
    with query.share() as mine:
        if not isinstance(data, sunwaket.Data):
            return mine.execute(data, **asked)
        with data.share() as own:
            return mine.execute(own, **asked)


class Handler(BaseHTTPRequestHandler):
    """One connection."""

    protocol_version = "HTTP/1.1"
    server_version = "sunwaket"
    sys_version = ""
    # Headers and body in one packet: else each answer waits for the other side's acknowledgement.
    wbufsize = 1 << 16
    disable_nagle_algorithm = True

    def setup(self):
        self.timeout = self.server.settings.time_limit
        super().setup()

    def handle_one_request(self):
        self.server.waits(self.connection, True)
        try:
            super().handle_one_request()
        finally:
            self.server.waits(self.connection, False)

    def parse_request(self):
        self.server.waits(self.connection, False)
        return super().parse_request()

    def do_GET(self):
        """The page, what it learns of the files, or a query in the address."""
        path = urlsplit(self.path).path
        if path in ("/", "/index.html"):
            self.answer_page()
        elif path == "/status":
            text = self.schema_text()
            told = {"faults": self.server.source.faults, "schema": None if text is None else hashlib.sha256(text).hexdigest()}
            self.answer_file(200, JSON, json.dumps(told).encode())
        elif path == "/schema" and self.schema_text() is not None:
            self.answer_file(200, "text/plain", self.schema_text())
        else:
            self.respond()

    def answer_page(self):
        """The page, where it is built."""
        if PAGE.is_file():
            self.answer_file(200, "text/html", PAGE.read_bytes().replace(ALONE, SERVED, 1))
        else:
            self.answer_file(503, "text/plain", b"There is no page: bindings/build makes it. Queries are answered at /graphql.")

    def schema_text(self):
        """The text of the schema, where it may be told and there is one."""
        served = self.server.source.current()
        return served.text.encode("utf-8") if served and self.server.settings.introspection else None

    do_HEAD = do_GET

    def do_POST(self):
        """A request in the body."""
        self.respond()

    def do_OPTIONS(self):
        """The methods, and for pages of other origins what they may send."""
        self.respond()

    def other(self):
        """Any other method."""
        self.close_connection = True
        self.send(answer(Request(self.command, {}), self.execute))

    do_PUT = do_DELETE = do_PATCH = other

    def body(self):
        """The bytes of the request, which are read whatever comes of it, so that the connection can go on."""
        length = self.headers.get("Content-Length", "")
        if not length.isdigit():
            self.close_connection = True
            raise Fault(411, "the length of the request is missing")
        if int(length) > self.server.settings.body_limit:
            self.close_connection = True
            raise Fault(413, f"the request has more than {self.server.settings.body_limit} bytes")
        return self.rfile.read(int(length))

    def respond(self):
        """Answers the request, or says why it is not answered."""
        settings, parts = self.server.settings, urlsplit(self.path)
        rules = Rules(body=settings.body_limit, origins=[settings.origin] if settings.origin else [])
        headers = {name.lower(): value for name, value in self.headers.items()}
        request = Request(self.command, headers, query=parts.query)
        try:
            if self.command == "POST":
                request = request._replace(body=self.body())
            if parts.path != "/graphql" and self.command != "OPTIONS":
                raise Fault(404, "there is nothing here but /graphql")
        except Fault as fault:
            self.send(Exchange(request, rules).refused(fault))
        else:
            self.send(answer(request, self.execute, rules))

    def execute(self, asked):
        """The response to a query."""
        settings, served = self.server.settings, self.server.source.current()
        if served is None:
            raise Fault(503, "; ".join(self.server.source.faults))
        if asked.query is None:
            raise Fault(None, "PersistedQueryNotSupported", "PERSISTED_QUERY_NOT_SUPPORTED")
        query, document = served.query(asked.query)
        name, variables = asked.operation_name, asked.variables
        if self.command != "POST" and query.kind(name) not in ("query", None):
            raise Fault(405, "only queries are executed by GET", Allow="POST, OPTIONS")
        operation = document.operation(name)
        if settings.depth is not None and operation and selections.depth(document, operation.selections) > settings.depth:
            raise Fault(None, f"the query is nested deeper than {settings.depth}")
        if settings.cost is not None:
            items, nodes = settings.cost
            query.cost(items=items, limit=nodes, operation_name=name)
        data = served.data_for(document, name, variables)
        reply = executed(query, data, name, variables, settings.introspection)
        time.sleep(settings.latency / 1000)
        return reply

    def answer_file(self, status, kind, body):
        """Answers with bytes that are no response."""
        self.send(Answer(status, {"Content-Type": f"{kind}; charset=utf-8", "Content-Length": str(len(body))}, body))

    def send(self, told):
        """Sends an answer. The body is left out for HEAD."""
        self.send_response(told.status)
        for name, value in told.headers.items():
            self.send_header(name, value)
        self.end_headers()
        if self.command != "HEAD":
            self.wfile.write(told.body)
