"""The mock server by GraphQL over HTTP: each thing that the specification asks of servers, with a request and what is wanted."""

import contextlib
import io
import json
import unittest

from http_table import ANSWER, POST, QUERY, check_rules, post
from mock_serving import DATA, SCHEMA, serving
from sunwaket.mock.settings import settings_of


class Rules(unittest.TestCase):
    def test_each_rule(self):
        with serving(DATA) as it:
            check_rules(self, it.send)

    def test_failed_fields_are_a_response(self):
        with serving(DATA, "--fail", "echo=sorry") as it:
            status, response = it.ask("{ count echo }")
            self.assertEqual((status, response["data"]), (200, {"count": 1, "echo": None}))
            self.assertEqual([(error["message"], error["path"]) for error in response["errors"]], [("resolver error: sorry", ["echo"])])

    def test_null_data_are_a_response(self):
        with serving({}) as it:
            status, response = it.ask("{ count }")
            self.assertEqual((status, response["data"]), (200, None))

    def test_methods_are_told(self):
        with serving(DATA, "--cors", "https://example.org") as it:
            status, told, text = it.send("OPTIONS", "/graphql")
            self.assertEqual((status, told["Allow"], text), (204, "GET, HEAD, POST, OPTIONS", b""))
            self.assertEqual(told["Access-Control-Allow-Origin"], "https://example.org")

    def test_no_origin_is_let_in_unasked(self):
        with serving(DATA) as it:
            self.assertIsNone(it.send("POST", "/graphql", POST, QUERY)[1]["Access-Control-Allow-Origin"])

    def test_a_long_request_is_refused(self):
        with serving(DATA, "--body-limit", "100") as it:
            self.assertEqual(it.send("POST", "/graphql", POST, post(query="{ count }" + " " * 100))[0], 413)
            self.assertEqual(it.ask("{ count }")[0], 200)

    def test_deep_queries_are_refused(self):
        with serving(None, "--depth", "3") as it:
            self.assertEqual(it.ask("{ books { author { name } } }")[0], 200)
            status, response = it.ask("{ books { author { books { id } } } }")
            self.assertEqual((status, response), (400, {"errors": [{"message": "the query is nested deeper than 3"}]}))

    def test_costly_queries_are_refused_before_they_are_executed(self):
        with serving(DATA, "--cost", "10:22", "--fail", "books=executed") as it:
            status, response = it.ask("{ books { author { name } } }")
            self.assertEqual((status, response), (400, {"errors": [{"message": "cost above limit"}]}))
            self.assertEqual(it.send("POST", "/graphql", POST, post(query="{ books { author { name } } }"))[0], 200)
            status, response = it.ask("{ books { id } }")
            self.assertEqual((status, response["errors"][0]["message"]), (200, "resolver error: executed"))
            self.assertEqual(it.ask("query A { books { author { name } } } query B { count }", operationName="B")[1], ANSWER)
            status, response = it.ask("query A { count }", operationName="B")
            self.assertEqual((status, response["errors"][0]["message"]), (400, "operation `B` is not defined"))

    def test_limits_of_costs_are_two_numbers(self):
        for word in ("10", "10:", ":10", "-1:10", "10:x", "4294967296:1", "1:4294967296"):
            with self.subTest(word), contextlib.redirect_stderr(io.StringIO()), self.assertRaises(SystemExit):
                settings_of(["schema.graphql", "--cost", word])
        self.assertEqual(settings_of(["schema.graphql", "--cost", "0:4294967295"]).cost, (0, 4294967295))

    def test_the_page_and_what_it_learns(self):
        with serving(DATA) as it:
            status, headers, page = it.send("GET", "/")
            self.assertEqual((status, headers["Content-Type"]), (200, "text/html; charset=utf-8"))
            self.assertIn(b'<html lang="en" data-server>', page)
            status, headers, text = it.send("GET", "/schema")
            self.assertEqual((status, headers["Content-Type"], text.decode()), (200, "text/plain; charset=utf-8", SCHEMA))
            first = json.loads(it.send("GET", "/status")[2])
            self.assertEqual(first["faults"], [])
            it.schema.write_text(SCHEMA + "scalar Another", encoding="utf-8")
            second = json.loads(it.send("GET", "/status")[2])
            self.assertNotEqual(second["schema"], first["schema"])
        with serving(DATA, "--no-introspection") as it:
            self.assertEqual(it.send("GET", "/schema")[0], 404)
            self.assertIsNone(json.loads(it.send("GET", "/status")[2])["schema"])

    def test_introspection_may_be_off(self):
        with serving(DATA, "--no-introspection") as it:
            self.assertNotIn("queryType", json.dumps(it.ask("{ __schema { queryType { name } } }")[1].get("data")))
        with serving(DATA) as it:
            self.assertEqual(it.ask("{ __schema { queryType { name } } }")[1]["data"]["__schema"]["queryType"], {"name": "Query"})


if __name__ == "__main__":
    unittest.main()
