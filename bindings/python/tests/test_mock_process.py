"""The mock server as a process of its own: what it says, how it ends, and a client that knows nothing of it."""

import json
import os
import pathlib
import signal
import subprocess
import sys
import tempfile
import threading
import time
import unittest
import urllib.request

from mock_serving import DATA, SCHEMA

PATIENCE = 60


def started(folder, *words):
    """A server over the schema in a folder, and the address that it says."""
    path = pathlib.Path(folder, "schema.graphql")
    path.write_text(SCHEMA, encoding="utf-8")
    pathlib.Path(folder, "data.json").write_text(json.dumps(DATA), encoding="utf-8")
    server = subprocess.Popen(
        [sys.executable, "-m", "sunwaket.mock", *words, "--port", "0"], cwd=folder, env=os.environ, text=True, stdout=subprocess.PIPE, stderr=subprocess.PIPE
    )
    return server, server.stdout.readline().strip()


def ask(address, query):
    """The response to a query."""
    body = json.dumps({"query": query}).encode()
    request = urllib.request.Request(address + "graphql", body, {"Content-Type": "application/json"})
    with urllib.request.urlopen(request, timeout=PATIENCE) as answer:
        return json.loads(answer.read())


class Process(unittest.TestCase):
    def test_it_answers_logs_and_ends(self):
        with tempfile.TemporaryDirectory() as folder:
            server, address = started(folder, "schema.graphql", "data.json")
            self.assertEqual(ask(address, "{ count }"), {"data": {"count": 1}})
            server.send_signal(signal.SIGTERM)
            _told, log = server.communicate(timeout=PATIENCE)
            self.assertEqual(server.returncode, 0)
            self.assertEqual([line.split('"')[1] for line in log.splitlines()], ["POST /graphql HTTP/1.1"])

    def test_a_request_that_runs_is_answered_before_the_end(self):
        with tempfile.TemporaryDirectory() as folder:
            server, address = started(folder, "schema.graphql", "data.json", "--latency", "3000")
            found = []
            asking = threading.Thread(target=lambda: found.append(ask(address, "{ count }")))
            asking.start()
            time.sleep(1)
            server.send_signal(signal.SIGTERM)
            asking.join()
            server.communicate(timeout=PATIENCE)
            self.assertEqual((found, server.returncode), ([{"data": {"count": 1}}], 0))

    def test_the_schema_alone_suffices(self):
        with tempfile.TemporaryDirectory() as folder:
            server, address = started(folder, "schema.graphql")
            self.assertEqual(ask(address, "{ books { id } }"), {"data": {"books": [{"id": "1"}, {"id": "2"}]}})
            server.terminate()
            server.communicate(timeout=PATIENCE)

    def test_a_wrong_schema_at_the_start_ends_it(self):
        with tempfile.TemporaryDirectory() as folder:
            pathlib.Path(folder, "wrong.graphql").write_text("type Query { a: Nope }", encoding="utf-8")
            server, address = started(folder, "wrong.graphql")
            _told, log = server.communicate(timeout=PATIENCE)
            self.assertEqual((address, server.returncode), ("", 1))
            self.assertTrue(log.startswith("wrong.graphql:1:17: "), log)


if __name__ == "__main__":
    unittest.main()
