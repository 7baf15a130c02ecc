"""A mock server of a test, and requests to it."""

import contextlib
import json
import pathlib
import tempfile
import threading

from http_table import send
from sunwaket.mock.server import MockServer
from sunwaket.mock.settings import settings_of

SCHEMA = """
"Books and who wrote them."
type Query { book(id: ID): Book books: [Book!]! search(text: String): [Found!]! echo(id: ID): String broken: String count: Int! }
type Mutation { rename(title: String): Book }
interface Node { id: ID! }
type Book implements Node { id: ID! title: String author: Author kind: Kind pages: Int old: String @deprecated(reason: "Use title.") }
type Author implements Node { id: ID! name: String! books: [Book!]! born: Date }
union Found = Book | Author
enum Kind { NOVEL ESSAY }
scalar Date
directive @d(a: [[Int!]!]) repeatable on QUERY | FIELD | VARIABLE_DEFINITION
"""

DATA = {
    "count": 1,
    "echo": "here",
    "books": [
        {"id": "1", "title": "A", "kind": "NOVEL"},
        {"id": "2", "title": "B", "author": {"id": "9", "name": "X", "books": []}},
    ],
}


class Serving:
    """A server over files in a folder of its own."""

    def __init__(self, folder, data, words):
        self.schema, self.data = pathlib.Path(folder, "schema.graphql"), pathlib.Path(folder, "data.json")
        self.schema.write_text(SCHEMA, encoding="utf-8")
        files = [str(self.schema)]
        if data is not None:
            self.data.write_text(json.dumps(data), encoding="utf-8")
            files.append(str(self.data))
        self.server = MockServer(settings_of([*files, "--port", "0", *words]))
        self.thread = threading.Thread(target=self.server.serve_forever)
        self.thread.start()

    @property
    def port(self):
        """Where it listens."""
        return self.server.server_address[1]

    def send(self, method, path, headers=None, body=None):
        """The status, the headers and the body of the answer to one request."""
        return send(self.port, method, path, headers, body)

    def ask(self, query, **parameters):
        """The status and the response to a query."""
        body = json.dumps({"query": query, **parameters})
        headers = {"Content-Type": "application/json", "Accept": "application/graphql-response+json"}
        status, _headers, text = self.send("POST", "/graphql", headers, body)
        return status, json.loads(text)

    def end(self):
        """Ends it."""
        self.server.end()
        self.thread.join()
        self.server.server_close()


@contextlib.contextmanager
def serving(data, *words):
    """A server over the schema above and these data, or over data that are made up where they are None."""
    with tempfile.TemporaryDirectory() as folder:
        made = Serving(folder, data, words)
        try:
            yield made
        finally:
            made.end()
