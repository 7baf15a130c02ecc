"""The schema of the table of rules with resolvers, and requests to an endpoint of a test."""

import json

from sunwaket.http import Endpoint, Request

SCHEMA = """
type Query { count: Int! echo(id: ID): String books: [Book!]! fails: String wrong: Int late: String who: String }
type Mutation { rename(title: String): Book }
type Subscription { counted(to: Int = 3): Int fails: Int silent: Int }
type Book { id: ID! title: String next: Book }
"""

NEW, OLD = "application/graphql-response+json", "application/json"


def fails(root, arguments):
    raise ValueError("a secret")


RESOLVERS = {
    "Query": {
        "count": lambda root, arguments: 1,
        "echo": lambda root, arguments: "here",
        "books": lambda root, arguments: [{"id": "1", "title": "A"}, {"id": "2", "title": "B"}],
        "fails": fails,
        "wrong": lambda root, arguments: object(),
    },
    "Mutation": {"rename": lambda root, arguments: {"id": "1", "title": arguments.get("title")}},
    "Book": {"next": lambda book, arguments: {"id": book["id"] + "1", "title": "N"}},
}


def endpoint(**options):
    """An endpoint over the schema."""
    return Endpoint(SCHEMA, options.pop("resolvers", RESOLVERS), **options)


def posted(query=None, accept=NEW, **parameters):
    """A POST request."""
    told = {"query": query, **parameters} if query is not None else parameters
    return Request("POST", {"content-type": OLD, "accept": accept}, json.dumps(told).encode())


def asked(of, query=None, **parameters):
    """The status and the response to a query."""
    answer = of.answer(posted(query, **parameters))
    return answer.status, json.loads(answer.body)


def messages(response):
    """The messages of a response's errors."""
    return [error["message"] for error in response.get("errors", [])]
