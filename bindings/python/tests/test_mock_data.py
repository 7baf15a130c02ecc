"""Where a mock server has its data from: a file, which may change, or the schema alone."""

import json
import threading
import unittest

from mock_serving import DATA, SCHEMA, serving

# Valid queries; each must be answered without an error from data that are made up.
VALID = [
    "{ count }",
    "{ books { id title author { name books { title kind pages old } born } } }",
    "{ search { __typename ... on Book { title } ... on Author { name } ... on Node { id } } }",
    "{ a: book { id } b: book(id: 7) { ...F } } fragment F on Book { author { ...G } } fragment G on Node { id ... on Author { name } }",
    "mutation { rename(title: \"x\") { title } }",
    "query A { count } query B($x: Boolean = true, $y: [[Int!]!] = [[1]] @d) @d { echo @skip(if: $x) count @d(a: $y) }",
    'query ($t: String = "a \\" b") { search(text: $t) { ... on Node { id } } } # }}',
    'query { search(text: """ a " b \\""" """) { ... @include(if: true) { __typename } ... on Node { id } } echo }',
    "{ __schema { types { name } } __type(name: \"Book\") { name } }",
]


class FromTheSchema(unittest.TestCase):
    def test_every_valid_query_is_answered(self):
        with serving(None) as it:
            for query in VALID:
                with self.subTest(query):
                    name = {"operationName": "B"} if "query B" in query else {}
                    status, response = it.ask(query, **name)
                    self.assertEqual((status, response.get("errors")), (200, None))

    def test_the_same_seed_gives_the_same(self):
        query, answers = "{ books { id pages author { name } } }", []
        for seed in ("1", "1", "2"):
            with serving(None, "--seed", seed) as it:
                answers.append(it.ask(query))
        self.assertEqual(answers[0], answers[1])
        self.assertNotEqual(answers[0], answers[2])

    def test_lists_have_two_items_and_ids_are_counted(self):
        with serving(None) as it:
            books = it.ask("{ books { id kind } }")[1]["data"]["books"]
        self.assertEqual(books, [{"id": "1", "kind": "NOVEL"}, {"id": "2", "kind": "NOVEL"}])


class FromAFile(unittest.TestCase):
    def test_objects_are_found_by_id(self):
        with serving(DATA) as it:
            self.assertEqual(it.ask("{ book(id: 2) { title } }")[1], {"data": {"book": {"title": "B"}}})
            self.assertEqual(it.ask("query($i: ID = \"1\") { it: book(id: $i) { title } }")[1], {"data": {"it": {"title": "A"}}})
            self.assertEqual(it.ask("{ book(id: 3) { title } }")[1], {"data": {"book": None}})
            self.assertEqual(it.ask("{ a: book(id: 1) { id } b: book(id: 1) { id } }")[1]["data"], {"a": {"id": "1"}, "b": {"id": "1"}})
            self.assertEqual(len(it.ask("{ a: book(id: 1) { id } b: book(id: 2) { id } }")[1]["errors"]), 2)

    def test_files_are_read_anew(self):
        with serving(DATA) as it:
            self.assertEqual(it.ask("{ count }")[1], {"data": {"count": 1}})
            it.data.write_text(json.dumps({"count": 20}), encoding="utf-8")
            self.assertEqual(it.ask("{ count }")[1], {"data": {"count": 20}})
            it.schema.write_text("type Query { other: Int }", encoding="utf-8")
            self.assertEqual(it.ask("{ other }")[1], {"data": {"other": None}})

    def test_a_wrong_schema_keeps_the_old_one_and_is_told(self):
        with serving(DATA) as it:
            self.assertEqual(it.ask("{ count }")[0], 200)
            it.schema.write_text("type Query {\n  a: Nope\n}", encoding="utf-8")
            self.assertEqual(it.ask("{ count }")[1], {"data": {"count": 1}})
            faults = json.loads(it.send("GET", "/status")[2])["faults"]
            self.assertTrue(faults and all(line.startswith(f"{it.schema}:") and "Nope" in line for line in faults), faults)
            it.schema.write_text(SCHEMA, encoding="utf-8")
            self.assertEqual(it.ask("{ count }")[0], 200)
            self.assertEqual(json.loads(it.send("GET", "/status")[2])["faults"], [])

    def test_many_threads_are_answered_alike(self):
        with serving(DATA) as it:
            wanted, found = it.ask("{ books { id title } }"), []
            threads = [threading.Thread(target=lambda: found.extend(it.ask("{ books { id title } }") for _ in range(20))) for _ in range(8)]
            for thread in threads:
                thread.start()
            for thread in threads:
                thread.join()
        self.assertEqual(found, [wanted] * 160)


if __name__ == "__main__":
    unittest.main()
