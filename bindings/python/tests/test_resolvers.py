"""Requests by resolvers: what they are given, what they may give, and what comes of it. Run by `python3 -m unittest` or by pytest."""

import doctest
import enum
import json
import threading
import types
import unittest

from sunwaket import RequestRefused, Resolvers, Schema
from sunwaket import _query, _resolvers

from tests.resolving import BOOKS, Author, answered, books_query, messages

SCALARS = "type Query { text: String number: Int float: Float truth: Boolean id: ID json: JSON cover: Cover list: [Int] } enum Cover { CLOTH } scalar JSON"


class Fields(unittest.TestCase):
    def test_a_resolver_is_given_the_object_and_the_arguments(self):
        told = []

        def book(root, arguments):
            told.append((root, arguments))
            return {"title": "Emma"}

        def year(source, arguments):
            told.append((source, arguments))
            return 1815

        query = books_query('query ($t: String!) { a: book(title: $t) { year } books { year } }')
        root = object()
        response = query.resolve(root, {"Query": {"book": book, "books": lambda *_: []}, "Book": {"year": year}}, variables={"t": "x"})
        self.assertEqual(response, b'{"data":{"a":{"year":1815},"books":[]}}')
        self.assertEqual(told, [(root, {"title": "x"}), ({"title": "Emma"}, {})])

    def test_defaults_of_arguments_are_given(self):
        told = []
        books_query("{ books { title } }").resolve(None, {"Query": {"books": lambda root, arguments: told.append(arguments)}})
        self.assertEqual(told, [{"first": 2}])

    def test_a_field_without_a_resolver_is_a_member_or_an_attribute(self):
        austen = Author("Jane Austen", {"title": "Emma"}, types.MappingProxyType({"title": "Persuasion"}))
        root = {"book": lambda title: {"title": title, "author": austen}, "books": None}
        query = books_query('{ book(title: "Emma") { title year author { name title books(first: 1) { title } } } books { title } }')
        author = {"name": "Jane Austen", "title": None, "books": [{"title": "Emma"}]}
        self.assertEqual(answered(query.resolve(root)), {"book": {"title": "Emma", "year": None, "author": author}, "books": None})

    def test_arguments_that_a_resolver_changes(self):
        def book(root, arguments):
            return {"title": arguments.pop("title")}

        query = books_query('{ a: book(title: "a") { title } b: book(title: "b") { title } }')
        self.assertEqual(answered(query.resolve(None, {"Query": {"book": book}})), {"a": {"title": "a"}, "b": {"title": "b"}})

    def test_resolvers_for_many_requests(self):
        resolvers = Resolvers({"Book": {"year": lambda book, arguments: 1}})
        for text, given in (("{ books { year } }", {"books": [{}]}), ("{ shelf { year } }", {"shelf": [[{}, None], None]})):
            self.assertNotIn("errors", json.loads(books_query(text).resolve(given, resolvers)))

    def test_resolvers_of_what_the_schema_lacks(self):
        query = books_query("{ books { title } }")
        for fields, message in (
            ({"Boook": {}}, "no object type"),
            ({"Entry": {"title": len}}, "no object type"),
            ({"Book": {"titel": len}}, r"`Book\.titel`, which is no field"),
        ):
            with self.assertRaisesRegex(ValueError, message):
                query.resolve(None, fields)

    def test_operations_and_introspection(self):
        query = books_query('query A { books { title } } query B { __type(name: "Book") { name } books { __typename } }')
        self.assertEqual(query.resolve({"books": [{"title": "x"}]}, operation_name="A"), b'{"data":{"books":[{"title":"x"}]}}')
        told = query.resolve({"books": [{}]}, operation_name="B", introspection=True)
        self.assertEqual(answered(told), {"__type": {"name": "Book"}, "books": [{"__typename": "Book"}]})
        self.assertIn(b"introspection is disabled", query.resolve({"books": []}, operation_name="B"))

    def test_refusals(self):
        query = books_query("query ($t: String!) { book(title: $t) { title } }")
        for arguments, message in (
            ({}, "missing value for non-null variable 't'"),
            ({"operation_name": "X"}, "operation `X` is not defined"),
            ({"variables": "[]"}, "variables: not an object"),
        ):
            with self.assertRaises(RequestRefused) as caught:
                query.resolve(None, {"Query": {"book": lambda *_: self.fail("asked")}}, **arguments)
            self.assertEqual(str(caught.exception), message)
        query.close()
        with self.assertRaisesRegex(ValueError, "closed"):
            query.resolve(None, variables={"t": "x"})

    def test_shares_and_closed_schemas(self):
        with Schema(BOOKS) as schema:
            query = schema.share().query("{ books { title } }")
        with query.share() as other:
            self.assertEqual(answered(other.resolve({"books": []})), {"books": []})
        self.assertEqual(answered(query.resolve({"books": []})), {"books": []})
        with self.assertRaisesRegex(ValueError, "closed"):
            schema.query("{ books { title } }")

    def test_types_nested_deep(self):
        for depth in (7, 8, 9, 60):
            query = Schema(f"type Query {{ a: {'[' * depth}A{']' * depth} }} type A {{ x: Int }}").query("{ a { x } }")
            value = wanted = {"x": 7}
            for _ in range(depth):
                value, wanted = (value,), [wanted]
            self.assertEqual(answered(query.resolve({"a": value})), {"a": wanted})

    def test_many_threads(self):
        query, wrong = books_query("{ books { title author { name } } }"), []
        root = {"books": [{"title": "x", "author": Author("y")}] * 3}
        wanted = {"books": [{"title": "x", "author": {"name": "y"}}] * 3}

        def work():
            for _ in range(50):
                if json.loads(query.resolve(root))["data"] != wanted:
                    wrong.append(threading.get_ident())

        threads = [threading.Thread(target=work) for _ in range(6)]
        for thread in threads:
            thread.start()
        for thread in threads:
            thread.join()
        self.assertEqual(wrong, [])


class Objects(unittest.TestCase):
    def test_an_object_is_asked_once(self):
        told, austen = [], Author("Jane Austen")
        query = books_query("{ books { author { name } } }")
        resolvers = {"Author": {"name": lambda author, arguments: told.append(author) or author.name}}
        response = query.resolve({"books": [{"author": austen}] * 2 + [{"author": austen}]}, resolvers)
        self.assertEqual(answered(response), {"books": [{"author": {"name": "Jane Austen"}}] * 3})
        self.assertEqual(told, [austen])

    def test_numbers_and_texts_are_objects_of_types_with_resolvers(self):
        titles = {1: "Emma", 2: "Persuasion"}
        query = books_query("{ books { title year author { name } } }")
        resolvers = {
            "Query": {"books": lambda root, arguments: [1, 2]},
            "Book": {"title": lambda number, arguments: titles[number], "author": lambda number, arguments: number},
            "Author": {"name": lambda number, arguments: f"author {number}"},
        }
        data = {"books": [{"title": titles[it], "year": None, "author": {"name": f"author {it}"}} for it in (1, 2)]}
        self.assertEqual(answered(query.resolve(None, resolvers)), data)
        told = query.resolve({"books": [1]})
        self.assertEqual(messages(told), [(["books", 0], "resolver returned a leaf value but expected an object for type Book")])

    def test_an_object_as_two_types_is_two(self):
        schema = Schema("type Query { a: A b: B } type A { x: Int } type B { x: Int }")
        resolvers = {"A": {"x": lambda *_: 1}, "B": {"x": lambda *_: 2}}
        self.assertEqual(answered(schema.query("{ a { x } b { x } }").resolve({"a": 7, "b": 7}, resolvers)), {"a": {"x": 1}, "b": {"x": 2}})

    def test_types_that_objects_tell(self):
        class Book:
            title = "Emma"

        class Novel:
            title = "Persuasion"

        setattr(Novel, "__typename", "Book")
        query = books_query("{ found { __typename ... on Book { title } ... on Author { name } } entry { title } }")
        root = {"found": [Book(), Novel(), Author("x"), {"__typename": "Author", "name": "y"}, None], "entry": Book()}
        found = [
            {"__typename": "Book", "title": "Emma"},
            {"__typename": "Book", "title": "Persuasion"},
            {"__typename": "Author", "name": "x"},
            {"__typename": "Author", "name": "y"},
            None,
        ]
        self.assertEqual(answered(query.resolve(root)), {"found": found, "entry": {"title": "Emma"}})

    def test_types_that_a_function_tells(self):
        resolvers = Resolvers({"Book": {"title": lambda number, arguments: f"no. {number}"}}, type_of=lambda it: "Book" if it == 1 else None)
        query = books_query("{ found { __typename ... on Book { title } } }")
        root = {"found": [1, {"__typename": "Author"}]}
        self.assertEqual(answered(query.resolve(root, resolvers)), {"found": [{"__typename": "Book", "title": "no. 1"}, {"__typename": "Author"}]})

    def test_objects_of_another_type(self):
        told = books_query("{ entry { title } }").resolve({"entry": object()})
        self.assertEqual(messages(told), [(["entry"], "resolver returned an object of type object not defined in the schema")])
        told = books_query("{ entry { title } }").resolve({"entry": 7}, Resolvers({"Book": {}}, type_of=lambda it: 1 / 0))
        self.assertEqual(messages(told), [(["entry"], "resolver error: division by zero")])

    def test_lists(self):
        class Pages:
            def __iter__(self):
                return iter([{"title": "a"}])

        query = books_query("{ books { title } }")
        for given in ([{"title": "a"}], ({"title": "a"},), iter([{"title": "a"}]), Pages(), {"x": {"title": "a"}}.values()):
            self.assertEqual(answered(query.resolve({"books": given})), {"books": [{"title": "a"}]})
        for given in ({"title": "a"}, "a", 7):
            self.assertEqual([path for path, _ in messages(query.resolve({"books": given}))], [["books"]])
        self.assertEqual([path for path, _ in messages(books_query("{ entry { title } }").resolve({"entry": [{}]}))], [["entry"]])


class Leaves(unittest.TestCase):
    def value_of(self, field, value):
        """What the response has for a value, and its error without `resolver error: `."""
        told = json.loads(Schema(SCALARS).query(f"{{ {field} }}").resolve({field: value}))
        errors = [error["message"].replace("resolver error: ", "") for error in told.get("errors", [])]
        return errors[0] if errors else told["data"][field]

    def test_values(self):
        class Shade(str, enum.Enum):
            CLOTH = "of cloth"

        Size = enum.IntEnum("Size", ["SMALL"])
        for field, value, told in (
            ("text", "a \u00e9 \U0001f600 \" \\ \n", "a \u00e9 \U0001f600 \" \\ \n"),
            ("number", -7, -7),
            ("number", 7.0, 7),
            ("number", Size.SMALL, 1),
            ("float", 2, 2),
            ("truth", True, True),
            ("id", "x", "x"),
            ("id", 2**63 - 1, 2**63 - 1),
            ("json", 2**64 - 1, 2**64 - 1),
            ("json", {"a": [1, None, {"b": ("x", -(2**63))}], "\u00e9": True}, {"a": [1, None, {"b": ["x", -(2**63)]}], "\u00e9": True}),
            ("cover", Shade.CLOTH, "CLOTH"),
            ("cover", "CLOTH", "CLOTH"),
            ("text", Shade.CLOTH, "of cloth"),
            ("list", range(3), [0, 1, 2]),
        ):
            self.assertEqual(self.value_of(field, value), told)

    def test_what_has_no_json(self):
        deep = []
        for _ in range(200):
            deep = [deep]
        endless = []
        endless.append(endless)
        for field, value, told in (
            ("float", 0.5, "0.5 is no whole number"),
            ("float", float("nan"), "nan is no whole number"),
            ("number", 2**64, "a number does not fit 64 bits"),
            ("number", 1e300, "a number does not fit 64 bits"),
            ("text", b"x", "a value of the type bytes has no JSON"),
            ("json", {1: 2}, "a key of the type int has no JSON"),
            ("json", {"a": object()}, "a value of the type object has no JSON"),
            ("json", deep, "a value is nested too deep"),
            ("json", endless, "a value is nested too deep"),
        ):
            self.assertEqual(self.value_of(field, value), told)
        self.assertEqual(self.value_of("text", "\ud800"), "?")
        told = Schema(SCALARS).query("{ list text }").resolve({"list": [1, 0.5], "text": "x"})
        self.assertEqual(json.loads(told)["data"]["text"], "x")
        self.assertEqual(messages(told), [(["list", 1], "resolver error: 0.5 is no whole number")])

    def test_values_of_other_types(self):
        self.assertEqual(self.value_of("number", "x"), 'resolver returned "x", expected Int')


class Failures(unittest.TestCase):
    def test_what_is_raised_is_the_error_of_its_field(self):
        def year(book, arguments):
            raise LookupError("no year is known")

        query = books_query("{ books { title year } }")
        told = query.resolve({"books": [{"title": "a"}, {"title": "b"}]}, {"Book": {"year": year}})
        self.assertEqual(json.loads(told)["data"], {"books": [{"title": "a", "year": None}, {"title": "b", "year": None}]})
        self.assertEqual(messages(told), [(["books", 0, "year"], "resolver error: no year is known"), (["books", 1, "year"], "resolver error: no year is known")])

    def test_strict_fields_end_their_object(self):
        told = books_query("{ books { title year } }").resolve({"books": [{"year": 1}]})
        self.assertEqual(json.loads(told)["data"], {"books": None})

    def test_exceptions_as_values(self):
        query = books_query("{ found { __typename } }")
        told = query.resolve({"found": [{"__typename": "Book"}, KeyError("x"), {"__error": "y"}, ValueError()]})
        self.assertEqual([text for _, text in messages(told)], [f"resolver error: {text}" for text in ("'x'", "y", "ValueError")])
        self.assertEqual(messages(query.resolve({"found": OSError("away")})), [(["found"], "resolver error: away")])

    def test_a_list_that_fails_while_it_is_gone_through(self):
        def rows():
            yield {"title": "a"}
            raise OSError("the connection is lost")

        told = books_query("{ books { title } }").resolve({"books": rows()})
        self.assertEqual(messages(told), [(["books"], "resolver error: the connection is lost")])

    def test_texts_for_clients(self):
        noted = []
        resolvers = Resolvers({"Query": {"books": lambda *_: 1 / 0}}, error_message=lambda error: noted.append(error) or "not now")
        self.assertEqual(messages(books_query("{ books { title } }").resolve(None, resolvers)), [(["books"], "resolver error: not now")])
        self.assertIsInstance(noted[0], ZeroDivisionError)

    def test_what_ends_the_program_is_raised(self):
        def leave(root, arguments):
            raise KeyboardInterrupt

        with self.assertRaises(KeyboardInterrupt):
            books_query("{ books { title } }").resolve(None, {"Query": {"books": leave}})

    def test_what_is_to_be_awaited(self):
        async def books(root, arguments):
            return []

        with self.assertRaisesRegex(TypeError, r"Query\.books .* use resolve_async"):
            books_query("{ books { title } }").resolve(None, {"Query": {"books": books}})


def load_tests(loader, tests, pattern):
    """The examples of the docstrings are tests too."""
    known = {"Schema": Schema, "json": json}
    for module in (_query, _resolvers):
        tests.addTests(doctest.DocTestSuite(module, extraglobs=known))
    return tests


if __name__ == "__main__":
    unittest.main()
