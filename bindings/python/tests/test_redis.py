"""Persisted queries in a Redis server, which several endpoints share."""

import asyncio
import hashlib
import json
import shutil
import socket
import subprocess
import tempfile
import time
import unittest

from serving_schemas import asked, endpoint, messages, posted
from sunwaket.http import RedisDocuments

COUNT = "{ count }"
SUM = hashlib.sha256(COUNT.encode()).hexdigest()
NAMED = {"persistedQuery": {"version": 1, "sha256Hash": SUM}}


def free_port():
    """A port that nothing listens at."""
    with socket.create_server(("127.0.0.1", 0)) as found:
        return found.getsockname()[1]


class Server:
    """A Redis server of a test."""

    def __init__(self, folder, port):
        words = ["redis-server", "--port", str(port), "--bind", "127.0.0.1", "--save", "", "--dir", folder]
        self.process = subprocess.Popen(words, stdout=subprocess.DEVNULL)
        for _ in range(500):
            try:
                socket.create_connection(("127.0.0.1", port)).close()
                return
            except OSError:
                time.sleep(0.02)
        raise RuntimeError("the Redis server does not start")

    def end(self):
        """Ends it."""
        self.process.terminate()
        self.process.wait()


@unittest.skipUnless(shutil.which("redis-server"), "redis-server is not here")
class Redis(unittest.TestCase):
    def setUp(self):
        self.folder = tempfile.TemporaryDirectory()
        self.port = free_port()
        self.server = Server(self.folder.name, self.port)
        self.addCleanup(self.folder.cleanup)
        self.addCleanup(lambda: self.server.end())

    def store(self):
        return RedisDocuments(port=self.port)

    def test_what_one_keeps_another_finds(self):
        first, second = endpoint(documents=self.store()), endpoint(documents=self.store())
        self.assertEqual(messages(asked(second, extensions=NAMED)[1]), ["PersistedQueryNotFound"])
        asked(first, COUNT, extensions=NAMED)
        self.assertEqual(asked(second, extensions=NAMED), (200, {"data": {"count": 1}}))

    def test_under_asyncio(self):
        of = endpoint(documents=self.store())
        asked(of, COUNT, extensions=NAMED)
        answer = asyncio.run(of.answer_async(posted(extensions=NAMED)))
        self.assertEqual(json.loads(answer.body), {"data": {"count": 1}})

    def test_what_another_hand_put_there_is_not_trusted(self):
        store = self.store()
        store._redis.ask("SET", "sunwaket:" + SUM, "{ echo }")
        self.assertIsNone(store.get(SUM))

    def test_long_texts_and_those_that_are_no_ascii(self):
        store = self.store()
        for text in ("{ é }\r\n$3", "x" * 200_000, ""):
            key = hashlib.sha256(text.encode()).hexdigest()
            store.put(key, text)
            self.assertEqual(store.get(key), text)

    def test_a_server_that_ends_and_comes_again(self):
        store, of = self.store(), endpoint(documents=self.store())
        store.put(SUM, COUNT)
        self.assertEqual(store.get(SUM), COUNT)
        self.server.end()
        self.assertIsNone(store.get(SUM))
        self.assertEqual(asked(of, COUNT, extensions=NAMED)[0], 200)
        self.server = Server(self.folder.name, self.port)
        store.put(SUM, COUNT)
        self.assertEqual(store.get(SUM), COUNT)


if __name__ == "__main__":
    unittest.main()
