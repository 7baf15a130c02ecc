"""The ASGI and the WSGI application in servers: the table of rules over each, streams of events, and what a server adds."""

import asyncio
import contextlib
import http.client
import json
import os
import pathlib
import shutil
import subprocess
import threading
import time
import unittest
from wsgiref.simple_server import WSGIRequestHandler, WSGIServer, make_server

from http_table import check_rules, send
from serving_schemas import RESOLVERS, SCHEMA, posted
from sunwaket import asgi, wsgi
from sunwaket.http import Limits

try:
    import uvicorn
except ImportError:
    uvicorn = None
try:
    import starlette.applications
    import starlette.routing
except ImportError:
    starlette = None
try:
    import flask
    from werkzeug.middleware.dispatcher import DispatcherMiddleware
except ImportError:
    flask = None


BINDINGS = pathlib.Path(__file__).resolve().parents[2]


class Quiet(WSGIRequestHandler):
    def log_message(self, *_):
        pass


@contextlib.contextmanager
def over_wsgi(app):
    """The port of a server over a WSGI application."""
    with make_server("127.0.0.1", 0, app, WSGIServer, Quiet) as server:
        thread = threading.Thread(target=server.serve_forever)
        thread.start()
        try:
            yield server.server_port
        finally:
            server.shutdown()
            thread.join()


@contextlib.contextmanager
def over_uvicorn(app):
    """The port of uvicorn over an ASGI application."""
    server = uvicorn.Server(uvicorn.Config(app, port=0, log_level="error", lifespan="on"))
    thread = threading.Thread(target=server.run)
    thread.start()
    try:
        while not server.started:
            time.sleep(0.01)
        yield server.servers[0].sockets[0].getsockname()[1]
    finally:
        server.should_exit = True
        thread.join()


def sending(port):
    """A function that sends requests there."""
    return lambda *request: send(port, *request)


class Tables(unittest.TestCase):
    def test_wsgi(self):
        with over_wsgi(wsgi.GraphQL(SCHEMA, RESOLVERS, path="/graphql")) as port:
            check_rules(self, sending(port))

    @unittest.skipUnless(flask, "Flask is not here")
    def test_flask(self):
        app = flask.Flask("test")
        app.wsgi_app = DispatcherMiddleware(wsgi.GraphQL(SCHEMA, RESOLVERS, path="/graphql"), {"/pages": app.wsgi_app})
        with over_wsgi(app) as port:
            check_rules(self, sending(port))

    @unittest.skipUnless(uvicorn, "uvicorn is not here")
    def test_asgi(self):
        with over_uvicorn(asgi.GraphQL(SCHEMA, RESOLVERS, path="/graphql")) as port:
            check_rules(self, sending(port))

    @unittest.skipUnless(uvicorn, "uvicorn is not here")
    def test_asgi_on_threads(self):
        with over_uvicorn(asgi.GraphQL(SCHEMA, RESOLVERS, path="/graphql", threads=4)) as port:
            check_rules(self, sending(port))

    @unittest.skipUnless(uvicorn and starlette, "uvicorn or Starlette is not here")
    def test_starlette(self):
        app = asgi.GraphQL(SCHEMA, RESOLVERS, path="/graphql")
        routes = [starlette.routing.Route("/graphql", app), starlette.routing.Mount("/", app)]
        with over_uvicorn(starlette.applications.Starlette(routes=routes)) as port:
            check_rules(self, sending(port))


@contextlib.contextmanager
def over_process(words, **variables):
    """The port that a server of another language says first. It ends when its standard input does."""
    pipes = {"stdin": subprocess.PIPE, "stdout": subprocess.PIPE, "text": True}
    with subprocess.Popen(words, env={**os.environ, **variables}, **pipes) as process:
        try:
            yield int(process.stdout.readline())
        finally:
            process.stdin.close()


NODE = BINDINGS / "node"
# Where Debian's packages for Node lie.
NODE_PATH = "/usr/share/nodejs"


class OtherLanguages(unittest.TestCase):
    def check_node(self, word):
        with over_process(["node", NODE / "tests" / "serving.js", word], NODE_PATH=NODE_PATH) as port:
            check_rules(self, sending(port))

    @unittest.skipUnless((NODE / "sunwaket.node").is_file() and shutil.which("node"), "there is no library for Node")
    def test_node(self):
        self.check_node("http")

    @unittest.skipUnless((NODE / "sunwaket.node").is_file() and pathlib.Path(NODE_PATH, "express").is_dir(), "Express is not here")
    def test_express(self):
        self.check_node("express")

    @unittest.skipUnless(os.environ.get("SUNWAKET_GO_TESTS"), "there are no tests for Go that are built")
    def test_go(self):
        with over_process([os.environ["SUNWAKET_GO_TESTS"], "-test.run", "TestServe"], SUNWAKET_SERVES="1") as port:
            check_rules(self, sending(port))


class Transports(unittest.TestCase):
    def test_a_long_body_is_refused_before_it_is_read(self):
        with over_wsgi(wsgi.GraphQL(SCHEMA, RESOLVERS, limits=Limits(body=100))) as port:
            body = json.dumps({"query": "{ count }" + " " * 100})
            self.assertEqual(send(port, "POST", "/", {"Content-Type": "application/json"}, body)[0], 413)

    def test_pages_of_other_origins(self):
        app = wsgi.GraphQL(SCHEMA, RESOLVERS, origins=["https://a.example", "https://b.example"])
        with over_wsgi(app) as port:
            for origin, allowed in (("https://b.example", "https://b.example"), ("https://c.example", None)):
                headers = {"Content-Type": "application/json", "Origin": origin}
                told = send(port, "POST", "/", headers, '{"query":"{ count }"}')[1]
                self.assertEqual((told["Access-Control-Allow-Origin"], told["Vary"]), (allowed, "Origin"))
            status, told, body = send(port, "OPTIONS", "/", {"Origin": "https://a.example", "Access-Control-Request-Headers": "content-type,x-a"})
            self.assertEqual((status, body, told["Access-Control-Allow-Headers"]), (204, b"", "content-type,x-a"))

    def test_wsgi_has_no_streams(self):
        with self.assertRaises(ValueError):
            wsgi.GraphQL(SCHEMA, RESOLVERS, subscriptions={"counted": None})


class Client:
    """A client of an ASGI application in this process, whose body comes in pieces and who may leave."""

    def __init__(self, request, pieces=None, leaves_after=None):
        headers = [(name.encode(), value.encode()) for name, value in request.headers.items()]
        self.scope = {"type": "http", "method": request.method, "path": "/", "query_string": request.query.encode(), "headers": headers}
        self.pieces = pieces if pieces is not None else [request.body]
        self.leaves_after, self.left = leaves_after, None
        self.status, self.headers, self.sent, self.is_whole = None, {}, [], False

    async def receive(self):
        if self.pieces:
            piece = self.pieces.pop(0)
            return {"type": "http.request", "body": piece, "more_body": bool(self.pieces)}
        self.left = self.left or asyncio.Event()
        await self.left.wait()
        return {"type": "http.disconnect"}

    async def send(self, message):
        if message["type"] == "http.response.start":
            self.status, self.headers = message["status"], dict(message["headers"])
            return
        self.sent.append(message["body"])
        self.is_whole = not message.get("more_body")
        if len(self.sent) == self.leaves_after:
            self.left = self.left or asyncio.Event()
            self.left.set()

    def ask(self, app):
        """Sends the request, and waits for the end of the answer."""
        asyncio.run(asyncio.wait_for(app(self.scope, self.receive, self.send), 20))
        return self

    @property
    def events(self):
        """What was streamed: names and values."""
        found = []
        for part in b"".join(self.sent).decode().split("\n\n"):
            lines = dict(line.partition(":")[::2] for line in part.split("\n") if not line.startswith(":") and line)
            if lines:
                data = lines["data"].strip()
                found.append((lines["event"].strip(), json.loads(data) if data else None))
        return found


class Source:
    """Sources of events, which tell what became of them."""

    def __init__(self):
        self.is_open, self.is_closed = False, False

    async def counted(self, arguments):
        self.is_open = True
        try:
            for number in range(arguments["to"]):
                await asyncio.sleep(0)
                yield {"counted": number}
        finally:
            self.is_closed = True

    async def silent(self, arguments):
        self.is_open = True
        try:
            await asyncio.sleep(3600)
            yield {}
        finally:
            self.is_closed = True

    async def fails(self, arguments):
        yield {"fails": 1}
        raise ValueError("a secret")

    def app(self, **options):
        sources = {"counted": self.counted, "silent": self.silent, "fails": self.fails}
        return asgi.GraphQL(SCHEMA, RESOLVERS, subscriptions=sources, **options)


STREAM = "text/event-stream"
COMPLETE = ("complete", None)


class Streams(unittest.TestCase):
    def test_an_event_is_an_execution(self):
        source = Source()
        client = Client(posted("subscription($n: Int) { counted(to: $n) }", STREAM, variables={"n": 2})).ask(source.app())
        self.assertEqual((client.status, client.headers[b"content-type"]), (200, b"text/event-stream; charset=utf-8"))
        self.assertEqual(client.events, [("next", {"data": {"counted": 0}}), ("next", {"data": {"counted": 1}}), COMPLETE])
        self.assertTrue(source.is_closed and client.is_whole)

    def test_by_get(self):
        request = posted("")._replace(method="GET", headers={"accept": STREAM}, query="query=subscription%20%7B%20counted%20%7D", body=b"")
        self.assertEqual(len(Client(request).ask(Source().app()).events), 4)

    def test_a_query_is_one_event(self):
        self.assertEqual(Client(posted("{ count }", STREAM)).ask(Source().app()).events, [("next", {"data": {"count": 1}}), COMPLETE])

    def test_a_client_that_leaves_frees_its_source(self):
        source = Source()
        client = Client(posted("subscription { counted(to: 1000000) }", STREAM), leaves_after=5).ask(source.app())
        self.assertTrue(source.is_closed)
        self.assertFalse(client.is_whole)

    def test_a_silent_source_is_freed_too_and_the_stream_says_it_is_there(self):
        source = Source()
        client = Client(posted("subscription { silent }", STREAM), leaves_after=3).ask(source.app(keep_alive=0.01))
        self.assertEqual((client.sent[:3], source.is_closed), ([b":\n\n"] * 3, True))

    def test_a_source_that_fails_ends_its_stream_with_an_error(self):
        first, error, last = Client(posted("subscription { fails }", STREAM)).ask(Source().app(mask=lambda error: "masked")).events
        self.assertEqual((first, last), (("next", {"data": {"fails": 1}}), COMPLETE))
        self.assertEqual(error[1]["errors"], [{"message": "resolver error: masked"}])

    def test_refusals_are_streamed(self):
        for text in ("subscription { nope }", "subscription($n: Int!) { counted(to: $n) }", "subscription { a: counted b: counted }"):
            with self.subTest(text):
                source = Source()
                told, last = Client(posted(text, STREAM)).ask(source.app()).events
                self.assertEqual((list(told[1]), last, source.is_open), (["errors"], COMPLETE, False))

    def test_what_is_no_request_has_its_status(self):
        self.assertEqual(Client(posted("{ count }", STREAM)._replace(body=b"{")).ask(Source().app()).status, 400)
        request = posted("")._replace(method="GET", headers={"accept": STREAM}, query="query=mutation%20%7B%20rename%20%7B%20id%20%7D%20%7D", body=b"")
        self.assertEqual(Client(request).ask(Source().app()).status, 405)

    def test_without_streams_a_subscription_is_refused(self):
        app = asgi.GraphQL(SCHEMA, RESOLVERS)
        self.assertEqual(Client(posted("subscription { counted }", STREAM)).ask(app).status, 406)
        self.assertEqual(Client(posted("subscription { counted }")).ask(app).status, 406)


@unittest.skipUnless(uvicorn, "uvicorn is not here")
class StreamsOverUvicorn(unittest.TestCase):
    """The same over a real connection, which the client closes."""

    def test_events_come_one_by_one_and_a_client_that_leaves_frees_its_source(self):
        source = Source()
        request = posted("subscription { silent }", STREAM)
        with over_uvicorn(source.app(keep_alive=0.02)) as port:
            connection = http.client.HTTPConnection("127.0.0.1", port, timeout=30)
            connection.request("POST", "/", request.body, request.headers)
            self.assertEqual(connection.getresponse().read(3), b":\n\n")
            self.assertTrue(source.is_open and not source.is_closed)
            connection.close()
            for _ in range(1000):
                if source.is_closed:
                    break
                time.sleep(0.01)
            self.assertTrue(source.is_closed)


try:
    import graphql
except ImportError:
    graphql = None


class Clients(unittest.TestCase):
    @unittest.skipUnless(hasattr(graphql, "get_introspection_query"), "graphql-core 3 is not here")
    def test_a_client_schema_is_built_of_the_introspection(self):
        answer = Source().app().endpoint.answer(posted(graphql.get_introspection_query()))
        schema = graphql.build_client_schema(json.loads(answer.body)["data"])
        self.assertEqual(graphql.print_schema(schema), graphql.print_schema(graphql.build_schema(SCHEMA)))


class Bodies(unittest.TestCase):
    def test_pieces_are_put_together(self):
        request = posted("{ count }")
        pieces = [request.body[at : at + 3] for at in range(0, len(request.body), 3)]
        self.assertEqual(json.loads(b"".join(Client(request, pieces).ask(Source().app()).sent)), {"data": {"count": 1}})

    def test_pieces_that_grow_too_long_are_not_read_on(self):
        request = posted("{ count }")
        client = Client(request, [b" " * 60] * 100).ask(Source().app(limits=Limits(body=100)))
        self.assertEqual((client.status, len(client.pieces)), (413, 98))


if __name__ == "__main__":
    unittest.main()
