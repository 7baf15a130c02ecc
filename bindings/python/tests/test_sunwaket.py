"""Each call of the package once where it answers, each refusal, and what is kept and let go. Run by `python3 -m unittest` or by pytest."""

import doctest
import gc
import json
import threading
import unittest

import sunwaket
from sunwaket import Data, Query, QueryRefused, Refused, RequestRefused, Schema, SchemaRefused, TooCostly, answer, check
from sunwaket import _api, _base, _errors

BOOKS = "type Query { book(title: String!): Book } type Mutation { add: Int } type Book { title: String! year: Int by: [String!] }"
QUERY = "query ($title: String!) { book(title: $title) { title year } }"
EMMA = {"book": {"title": "Emma", "year": 1815}}
ANSWER = b'{"data":{"book":{"title":"Emma","year":1815}}}'


class Answers(unittest.TestCase):
    def setUp(self):
        self.schema = Schema(BOOKS)
        self.query = self.schema.query(QUERY)

    def test_data_may_be_a_mapping_or_json(self):
        for data in (EMMA, json.dumps(EMMA), json.dumps(EMMA).encode(), Data(EMMA)):
            self.assertEqual(self.query.execute(data, variables={"title": "Emma"}), ANSWER)

    def test_variables_may_be_a_mapping_or_json(self):
        for variables in ({"title": "Emma"}, '{"title":"Emma"}', b'{"title":"Emma"}'):
            self.assertEqual(self.query.execute(EMMA, variables=variables), ANSWER)

    def test_no_data_is_an_object_without_members(self):
        self.assertEqual(self.query.execute(variables={"title": "x"}), b'{"data":{"book":null}}')

    def test_errors_of_fields_stand_in_the_response(self):
        told = json.loads(self.query.execute({"book": {"__error": "away"}}, variables={"title": "x"}))
        self.assertEqual(told["errors"][0]["message"], "resolver error: away")
        self.assertEqual(told["data"], {"book": None})

    def test_long_responses_are_whole(self):
        by = ["x" * 100 + "\u00e9"] * 1000
        query = self.schema.query('{ book(title: "t") { title by } }')
        told = query.execute({"book": {"title": "t", "by": by}})
        self.assertEqual(json.loads(told), {"data": {"book": {"title": "t", "by": by}}})
        self.assertEqual(query.execute({"book": None}), b'{"data":{"book":null}}')

    def test_introspection_is_off_unless_asked_for(self):
        query = self.schema.query('{ __type(name: "Book") { name } }')
        self.assertIn(b"introspection is disabled", query.execute())
        self.assertEqual(query.execute(introspection=True), b'{"data":{"__type":{"name":"Book"}}}')

    def test_operations_by_name(self):
        query = self.schema.query('query A { book(title: "a") { title } } mutation B { add }')
        self.assertEqual(query.execute({"add": 2}, operation_name="B"), b'{"data":{"add":2}}')
        self.assertEqual((query.kind("A"), query.kind("B"), query.kind("C"), query.kind()), ("query", "mutation", None, None))
        self.assertEqual(self.query.kind(), "query")

    def test_costs(self):
        query = Schema("type Query { a: [A] } type A { x: Int more: [A] }").query("query P { a { x } } query Q { a { more { x } } }")
        self.assertEqual([query.cost(items=items, operation_name="P") for items in (0, 1, 10)], [2, 4, 22])
        self.assertEqual([query.cost(items=items, operation_name="Q") for items in (0, 1, 10)], [2, 6, 222])
        self.assertEqual(query.cost(items=10, limit=222, operation_name="Q"), 222)

    def test_all_at_once(self):
        self.assertEqual(answer(BOOKS, QUERY, EMMA, variables={"title": "Emma"}), ANSWER)

    def test_check(self):
        self.assertEqual(check(BOOKS, QUERY), "")
        self.assertIn("query.graphql:1:3: ", check(BOOKS, "{ nope }"))

    def test_version(self):
        self.assertRegex(sunwaket.VERSION, r"^\d+\.\d+\.\d+$")


class Refusals(unittest.TestCase):
    def test_schema(self):
        with self.assertRaises(SchemaRefused) as caught:
            Schema("type Query { a: Missing }")
        self.assertEqual(json.loads(caught.exception.json)["errors"], caught.exception.errors)
        self.assertEqual(caught.exception.errors[0]["locations"], [{"line": 1, "column": 17}])

    def test_query(self):
        with self.assertRaises(QueryRefused) as caught:
            Schema(BOOKS).query("{ nope }")
        self.assertEqual(str(caught.exception), "type `Query` does not have a field `nope`")

    def test_request(self):
        query = Schema(BOOKS).query(QUERY)
        for arguments, message in (
            ({}, "missing value for non-null variable 'title'"),
            ({"operation_name": "X"}, "operation `X` is not defined"),
            ({"variables": "[]"}, "variables: not an object"),
            ({"variables": "{"}, "variables: syntax at byte 1"),
        ):
            with self.assertRaises(RequestRefused) as caught:
                query.execute(EMMA, **arguments)
            self.assertEqual(str(caught.exception), message)

    def test_cost(self):
        query = Schema("type Query { a: [Int] }").query("query P { a } query Q { a }")
        with self.assertRaises(TooCostly) as caught:
            query.cost(items=10, limit=11, operation_name="P")
        self.assertEqual(caught.exception.json, b'{"errors":[{"message":"cost above limit"}]}')
        with self.assertRaises(TooCostly):
            query.cost(items=2**32 - 1, operation_name="P")
        for name, message in ((None, "document has 2 operations and no name was given"), ("X", "operation `X` is not defined")):
            with self.assertRaises(RequestRefused) as caught:
                query.cost(items=10, operation_name=name)
            self.assertEqual((str(caught.exception), type(caught.exception)), (message, RequestRefused))
        for wrong in ({"items": -1}, {"items": 2**32}, {"items": 1, "limit": -1}, {"items": 1, "limit": 2**32}):
            with self.assertRaisesRegex(ValueError, "items and limit are from 0"):
                query.cost(**wrong)
        query.close()
        with self.assertRaisesRegex(ValueError, "closed"):
            query.cost(items=1, operation_name="P")

    def test_all_are_one_kind(self):
        self.assertTrue(issubclass(Refused, ValueError))
        for kind in (SchemaRefused, QueryRefused, RequestRefused, TooCostly):
            self.assertTrue(issubclass(kind, Refused))

    def test_no_text_and_no_data(self):
        with self.assertRaisesRegex(ValueError, "the schema is no UTF-8"):
            Schema(b"\xff")
        with self.assertRaisesRegex(ValueError, "the query is no UTF-8"):
            Schema(BOOKS).query(b"\xff")
        for data in ("[]", "{", '{"x":1.5}', '{"x":18446744073709551616}', b"\xff"):
            with self.assertRaisesRegex(ValueError, "the data are no JSON object"):
                Data(data)

    def test_closed(self):
        query, data = Schema(BOOKS).query(QUERY), Data(EMMA)
        data.close()
        data.close()
        with self.assertRaisesRegex(ValueError, "closed"):
            query.execute(data, variables={"title": "x"})
        query.close()
        with self.assertRaisesRegex(ValueError, "closed"):
            query.kind()

    def test_a_query_is_made_by_a_schema(self):
        with self.assertRaises(TypeError):
            Query()


class Lives(unittest.TestCase):
    def test_a_query_keeps_its_schema(self):
        with Schema(BOOKS) as schema:
            query = schema.query(QUERY)
        del schema
        gc.collect()
        self.assertEqual(query.execute(EMMA, variables={"title": "Emma"}), ANSWER)

    def test_shares_live_on_their_own(self):
        schema, data = Schema(BOOKS), Data(EMMA)
        query = schema.query(QUERY)
        other, more = query.share(), data.share()
        query.close()
        data.close()
        self.assertEqual(other.execute(more, variables={"title": "Emma"}), ANSWER)

    def test_threads(self):
        query, data, wrong = Schema(BOOKS).query(QUERY), Data(EMMA), []

        def work(own, root):
            for _ in range(200):
                if own.execute(root, variables={"title": "Emma"}) != ANSWER:
                    wrong.append(threading.get_ident())

        pairs = [(query, data)] * 4 + [(query.share(), data.share()) for _ in range(4)]
        threads = [threading.Thread(target=work, args=pair) for pair in pairs]
        for thread in threads:
            thread.start()
        for thread in threads:
            thread.join()
        self.assertEqual(wrong, [])

    def test_values_go_from_thread_to_thread(self):
        told = []

        def in_thread(work):
            thread = threading.Thread(target=lambda: told.append(work()))
            thread.start()
            thread.join()
            return told.pop()

        schema = in_thread(lambda: Schema(BOOKS))
        query = in_thread(lambda: schema.query(QUERY))
        in_thread(schema.close)
        data = in_thread(lambda: Data(EMMA))
        other = in_thread(query.share)
        in_thread(query.close)
        self.assertEqual(in_thread(lambda: other.execute(data, variables={"title": "Emma"})), ANSWER)
        in_thread(data.close)
        self.assertEqual(other.execute(EMMA, variables={"title": "Emma"}), ANSWER)


def load_tests(loader, tests, pattern):
    """The examples of the docstrings are tests too."""
    known = {"Schema": Schema, "Data": Data, "Refused": Refused}
    for module in (sunwaket, _api, _base, _errors):
        tests.addTests(doctest.DocTestSuite(module, extraglobs=known))
    return tests


if __name__ == "__main__":
    unittest.main()
