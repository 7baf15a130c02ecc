"""GraphQL over HTTP: each thing that the specification asks of servers, with a request and what is wanted. Every server here is tried by
this table, over a schema with `count`, `echo` and the mutation `rename`."""

import contextlib
import http.client
import json
from urllib.parse import quote

NEW, OLD = "application/graphql-response+json", "application/json"
POST = {"Content-Type": OLD}
QUERY = '{"query":"{ count }"}'
ANSWER = {"data": {"count": 1}}


def accepting(kind):
    """The headers of a POST that accepts this media type."""
    return {**POST, "Accept": kind}


def get(**parameters):
    """The path of a GET request with these parameters."""
    return "/graphql?" + "&".join(f"{name}={quote(value)}" for name, value in parameters.items())


def post(**parameters):
    """The body of a POST request with these parameters."""
    return json.dumps(parameters)


# What the specification asks, the request, and the status and the media type that are wanted; `ANSWER` where a response is wanted,
# `None` where its data must be absent.
RULES = [
    ("MUST accept graphql-response+json", "POST", "/graphql", accepting(NEW), QUERY, 200, NEW, ANSWER),
    ("MUST accept application/json", "POST", "/graphql", accepting(OLD), QUERY, 200, OLD, ANSWER),
    ("SHOULD answer */* with application/json", "POST", "/graphql", accepting("*/*"), QUERY, 200, OLD, ANSWER),
    ("SHOULD answer application/* with the newer type", "POST", "/graphql", accepting("application/*"), QUERY, 200, NEW, ANSWER),
    ("SHOULD assume application/json without Accept", "POST", "/graphql", POST, QUERY, 200, OLD, ANSWER),
    ("MUST go by quality", "POST", "/graphql", accepting(f"{OLD};q=0.5, {NEW}"), QUERY, 200, NEW, ANSWER),
    ("MUST go by quality, the other way", "POST", "/graphql", accepting(f"{NEW};q=0.5, {OLD};q=0.9"), QUERY, 200, OLD, ANSWER),
    ("SHOULD refuse other types with 406", "POST", "/graphql", accepting("text/html"), QUERY, 406, OLD, None),
    ("SHOULD refuse a type of quality 0", "POST", "/graphql", accepting(f"{OLD};q=0"), QUERY, 406, OLD, None),
    ("MUST accept a request in UTF-8", "POST", "/graphql", {"Content-Type": OLD + "; charset=utf-8"}, QUERY, 200, OLD, ANSWER),
    ("SHOULD refuse another charset", "POST", "/graphql", {"Content-Type": OLD + "; charset=latin-1"}, QUERY, 415, OLD, None),
    ("MUST accept POST", "POST", "/graphql", POST, QUERY, 200, OLD, ANSWER),
    ("SHOULD refuse a POST without a content type", "POST", "/graphql", {}, QUERY, 415, OLD, None),
    ("SHOULD refuse a POST of another content type", "POST", "/graphql", {"Content-Type": "text/plain"}, QUERY, 415, OLD, None),
    ("MUST have a body", "POST", "/graphql", {**POST, "Content-Length": "0"}, None, 400, OLD, None),
    ("MAY accept GET", "GET", get(query="{ count }"), {}, None, 200, OLD, ANSWER),
    ("MAY accept GET, the newer type", "GET", get(query="{ count }"), {"Accept": NEW}, None, 200, NEW, ANSWER),
    ("MUST NOT execute mutations by GET", "GET", get(query="mutation { rename { id } }"), {}, None, 405, OLD, None),
    ("MUST NOT execute mutations by GET, one of two operations", "GET", get(query="query A { count } mutation B { rename { id } }", operationName="B"), {}, None, 405, OLD, None),
    ("MAY execute the query of two operations by GET", "GET", get(query="query A { count } mutation B { rename { id } }", operationName="A"), {}, None, 200, OLD, ANSWER),
    ("SHOULD take variables of a GET as JSON", "GET", get(query="query($i: ID) { echo(id: $i) }", variables='{"i":"1"}'), {}, None, 200, OLD, {"data": {"echo": "here"}}),
    ("SHOULD refuse variables of a GET that are no JSON", "GET", get(query="{ count }", variables="{"), {}, None, 400, OLD, None),
    ("SHOULD answer HEAD as GET", "HEAD", get(query="{ count }"), {}, None, 200, OLD, ""),
    ("SHOULD refuse other methods with 405", "PUT", "/graphql", POST, QUERY, 405, OLD, None),
    ("SHOULD refuse other methods with 405, too", "DELETE", "/graphql", {}, None, 405, OLD, None),
    ("MUST refuse a missing query", "POST", "/graphql", accepting(NEW), post(qeury="{ count }"), 400, NEW, None),
    ("MUST refuse a missing query, the older type", "POST", "/graphql", accepting(OLD), post(qeury="{ count }"), 400, OLD, None),
    ("MUST refuse a missing query by GET", "GET", "/graphql", {}, None, 400, OLD, None),
    ("SHOULD refuse a query that is no text", "POST", "/graphql", accepting(NEW), post(query={"a": 1}), 400, NEW, None),
    ("SHOULD refuse a query that is a list", "POST", "/graphql", accepting(NEW), post(query=["{ count }"]), 400, NEW, None),
    ("SHOULD refuse a request that is a list", "POST", "/graphql", accepting(NEW), f"[{QUERY}]", 400, NEW, None),
    ("MUST allow null for operationName", "POST", "/graphql", accepting(NEW), post(query="{ count }", operationName=None), 200, NEW, ANSWER),
    ("MUST allow a text for operationName", "POST", "/graphql", accepting(NEW), post(query="query A { count }", operationName="A"), 200, NEW, ANSWER),
    ("SHOULD refuse an operationName that is no text", "POST", "/graphql", accepting(NEW), post(query="{ count }", operationName=7), 400, NEW, None),
    ("MUST allow null for variables", "POST", "/graphql", accepting(NEW), post(query="{ count }", variables=None), 200, NEW, ANSWER),
    ("MUST allow an object for variables", "POST", "/graphql", accepting(NEW), post(query="query($i: ID) { echo(id: $i) }", variables={"i": "1"}), 200, NEW, {"data": {"echo": "here"}}),
    ("SHOULD refuse variables that are a list", "POST", "/graphql", accepting(NEW), post(query="{ count }", variables=[1]), 400, NEW, None),
    ("MUST allow null for extensions", "POST", "/graphql", accepting(NEW), post(query="{ count }", extensions=None), 200, NEW, ANSWER),
    ("MUST allow an object for extensions", "POST", "/graphql", accepting(NEW), post(query="{ count }", extensions={"a": 1}), 200, NEW, ANSWER),
    ("SHOULD refuse extensions that are a text", "POST", "/graphql", accepting(NEW), post(query="{ count }", extensions="a"), 400, NEW, None),
    ("SHOULD refuse what is no JSON with 400", "POST", "/graphql", accepting(NEW), '{"query":', 400, NEW, None),
    ("SHOULD refuse what is no JSON with 400, the older type", "POST", "/graphql", accepting(OLD), "NONSENSE", 400, OLD, None),
    ("SHOULD refuse what is no UTF-8", "POST", "/graphql", accepting(NEW), b'{"query":"\xff"}', 400, NEW, None),
    ("SHOULD tell a syntax error with 400", "POST", "/graphql", accepting(NEW), post(query="{"), 400, NEW, None),
    ("SHOULD tell a syntax error with 200, the older type", "POST", "/graphql", accepting(OLD), post(query="{"), 200, OLD, None),
    ("SHOULD tell a validation error with 400", "POST", "/graphql", accepting(NEW), post(query="{ nope }"), 400, NEW, None),
    ("SHOULD tell a validation error with 200, the older type", "POST", "/graphql", accepting(OLD), post(query="{ nope }"), 200, OLD, None),
    ("SHOULD tell a missing operation with 400", "POST", "/graphql", accepting(NEW), post(query="query A { count }", operationName="B"), 400, NEW, None),
    ("SHOULD tell a missing operation with 200, the older type", "POST", "/graphql", accepting(OLD), post(query="query A { count }", operationName="B"), 200, OLD, None),
    ("SHOULD tell an ambiguous operation with 400", "POST", "/graphql", accepting(NEW), post(query="query A { count } query B { count }"), 400, NEW, None),
    ("SHOULD tell a refused variable with 400", "POST", "/graphql", accepting(NEW), post(query="query($i: ID!) { echo(id: $i) }", variables={}), 400, NEW, None),
    ("SHOULD tell a refused variable with 200, the older type", "POST", "/graphql", accepting(OLD), post(query="query($i: ID!) { echo(id: $i) }", variables={}), 200, OLD, None),
    ("there is nothing at another path", "POST", "/other", POST, QUERY, 404, OLD, None),
]


def send(port, method, path, headers=None, body=None):
    """The status, the headers and the body of the answer to one request."""
    connection = http.client.HTTPConnection("127.0.0.1", port, timeout=60)
    with contextlib.closing(connection):
        connection.request(method, path, body, headers or {})
        answer = connection.getresponse()
        return answer.status, answer.headers, answer.read()


def check_rules(case, sending):
    """Tries each rule by a function that sends requests."""
    for name, method, path, headers, body, status, kind, wanted in RULES:
        with case.subTest(name):
            found, told, text = sending(method, path, headers, body)
            case.assertEqual((found, told["Content-Type"]), (status, f"{kind}; charset=utf-8"))
            check_told(case, text, wanted)


def check_told(case, text, wanted):
    """An answer without data tells errors with messages, and no data."""
    if wanted == "":
        case.assertEqual(text, b"")
    elif wanted is None:
        response = json.loads(text)
        case.assertNotIn("data", response)
        case.assertTrue(all(isinstance(error["message"], str) for error in response["errors"]) and response["errors"])
    else:
        case.assertEqual(json.loads(text), wanted)
