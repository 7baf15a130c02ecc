"""The shop: a level of a query is one statement, however many objects it has; and what it answers."""

import asyncio
import json
import os
import pathlib
import shutil
import subprocess
import tempfile
import time
import unittest

from shop.app import Shop
from shop.database import Database
from sunwaket.http import Request

NESTED = "query N($first: Int) { books(first: $first) { edges { node { title author { name } reviews(first: 2) { stars customer { name } } } } } }"


def asked(shop, query, customer=None, **variables):
    """The response to a query."""
    headers = {"content-type": "application/json", **({"authorization": customer} if customer else {})}
    body = json.dumps({"query": query, "variables": variables}).encode()
    return json.loads(asyncio.run(shop.graphql.endpoint.answer_async(Request("POST", headers, body))).body)


class OverSQLite(unittest.TestCase):
    def setUp(self):
        folder = tempfile.TemporaryDirectory()
        self.addCleanup(folder.cleanup)
        self.shop = Shop(self.database(folder.name), threads=0)

    def database(self, folder):
        made = Database(os.path.join(folder, "shop.sqlite3"))
        made.fill(books=200)
        return made

    def data(self, query, customer=None, **variables):
        response = asked(self.shop, query, customer, **variables)
        self.assertNotIn("errors", response)
        return response["data"]

    def statements(self, query, **variables):
        before = self.shop.database.statements
        self.data(query, **variables)
        return self.shop.database.statements - before

    def test_a_level_is_one_statement(self):
        for first in (1, 10, 100):
            with self.subTest(first):
                self.assertEqual(self.statements(NESTED, first=first), 4)

    def test_pages(self):
        text = "query($after: String) { books(first: 90, after: $after) { edges { node { id } } pageInfo { hasNextPage endCursor } total } }"
        seen, after, has_next = [], None, True
        while has_next:
            page = self.data(text, after=after)["books"]
            seen += [edge["node"]["id"] for edge in page["edges"]]
            has_next, after = page["pageInfo"]["hasNextPage"], page["pageInfo"]["endCursor"]
        self.assertEqual((len(seen), len(set(seen)), page["total"]), (200, 200, 200))

    def test_lists_are_those_of_their_objects(self):
        for book in self.data("{ books(first: 20) { edges { node { id reviews(first: 9) { book { id } } rating { stars reviews } } } } }")["books"]["edges"]:
            node = book["node"]
            self.assertEqual([it["book"]["id"] for it in node["reviews"]], [node["id"]] * node["rating"]["reviews"])

    def test_interface_and_union(self):
        self.assertEqual(self.data('{ node(id: "Author:3") { __typename id ... on Author { name } } }')["node"]["id"], "Author:3")
        found = self.data('{ search(text: "e", first: 100) { __typename ... on Book { title } ... on Author { name } } }')["search"]
        self.assertIn("Book", {it["__typename"] for it in found})

    def test_filters(self):
        found = self.data('{ books(filter: {titleContains: "SEA", maxPriceCents: 2000}, order: PRICE) { edges { node { title priceCents } } } }')["books"]["edges"]
        prices = [it["node"]["priceCents"] for it in found]
        self.assertTrue(found and prices == sorted(prices) and prices[-1] <= 2000 and all("Sea" in it["node"]["title"] for it in found))

    def test_mutations_are_seen_by_what_comes_after(self):
        text = 'mutation { review(book: "Book:7", stars: 5, text: "Yes") { text book { rating { reviews } } customer { id } } }'
        self.assertEqual(self.data(text, "Customer:2")["review"], {"text": "Yes", "book": {"rating": {"reviews": 6}}, "customer": {"id": "Customer:2"}})
        text = 'mutation { order(lines: [{book: "Book:1", count: 2}, {book: "Book:2"}]) { state totalCents lines { count book { id priceCents } } } }'
        order = self.data(text, "Customer:2")["order"]
        self.assertEqual(order["totalCents"], sum(line["count"] * line["book"]["priceCents"] for line in order["lines"]))

    def test_what_is_wrong_is_told(self):
        for text, message in (
            ('mutation { review(book: "Book:7", stars: 5, text: "") { id } }', "say who you are: `Authorization: Customer:1`"),
            ('{ book(id: "Author:1") { id } }', "`Author:1` is no id of a Book"),
            ("{ books(first: 101) { total } }", "`first` is from 0 to 100"),
        ):
            with self.subTest(text):
                self.assertEqual([it["message"] for it in asked(self.shop, text)["errors"]], ["resolver error: " + message])

    def test_a_broken_database_tells_nothing(self):
        self.shop.database.rows("DROP TABLE line")
        with self.assertLogs(level="ERROR"):
            response = asked(self.shop, '{ node(id: "Order:1") { ... on Order { lines { count } } } }')
        self.assertEqual(response["errors"][0]["message"], "resolver error: internal error")

    def test_metrics(self):
        self.data(NESTED)
        text = self.shop.metrics.text()
        self.assertIn('graphql_operations_total{name="N",kind="query",status="200"} 1\n', text)
        self.assertIn('graphql_seconds_bucket{le="+Inf"} 1\n', text)

    def test_reviews_are_streamed(self):
        async def stream():
            source = self.shop.graphql.endpoint.sources["reviewed"]({"book": "Book:7"})
            waiting = asyncio.ensure_future(source.__anext__())
            await asyncio.sleep(0)
            for book in (8, 7):
                body = {"query": f'mutation {{ review(book: "Book:{book}", stars: 1, text: "{book}") {{ id }} }}'}
                headers = {"content-type": "application/json", "authorization": "Customer:1"}
                await self.shop.graphql.endpoint.answer_async(Request("POST", headers, json.dumps(body).encode()))
            event = await asyncio.wait_for(waiting, 10)
            await source.aclose()
            return event

        self.assertEqual(asyncio.run(stream())["reviewed"]["text"], "7")


def postgres_programs():
    """The folder of PostgreSQL's programs, or None."""
    found = sorted(pathlib.Path("/usr/lib/postgresql").glob("*/bin/initdb"))
    return found[-1].parent if found and shutil.which("runuser") and os.geteuid() == 0 else None


@unittest.skipUnless(postgres_programs(), "PostgreSQL is not here, or may not be started")
class OverPostgreSQL(OverSQLite):
    """The same over a server of its own, in a folder of its own."""

    @classmethod
    def setUpClass(cls):
        try:
            import psycopg2  # noqa: F401
        except ImportError:
            raise unittest.SkipTest("psycopg2 is not here") from None
        cls.folder, cls.programs = tempfile.mkdtemp(), postgres_programs()
        shutil.chown(cls.folder, "postgres")
        cls.as_owner(cls.programs / "initdb", "-D", f"{cls.folder}/data", "-A", "trust", "--no-sync")
        options = f"-k {cls.folder} -c listen_addresses= -c fsync=off"
        cls.as_owner(cls.programs / "pg_ctl", "-D", f"{cls.folder}/data", "-o", options, "-w", "-l", f"{cls.folder}/log", "start")

    @classmethod
    def as_owner(cls, *words):
        subprocess.run(["runuser", "-u", "postgres", "--", *map(str, words)], check=True, cwd="/", stdout=subprocess.DEVNULL, stderr=subprocess.DEVNULL)

    @classmethod
    def tearDownClass(cls):
        cls.as_owner(cls.programs / "pg_ctl", "-D", f"{cls.folder}/data", "-m", "immediate", "stop")
        shutil.rmtree(cls.folder)

    def database(self, folder):
        name = f"shop{time.monotonic_ns()}"
        self.as_owner("createdb", "-h", self.folder, name)
        made = Database(f"postgresql://postgres@/{name}?host={self.folder}")
        made.fill(books=200)
        self.addCleanup(lambda: made.connection.close())
        return made


if __name__ == "__main__":
    unittest.main()
