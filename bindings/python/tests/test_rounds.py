"""Requests by resolvers, round by round: for many at once, awaited, and mutations. Run by `python3 -m unittest` or by pytest."""

import asyncio
import json
import unittest

from sunwaket import RequestRefused, Schema, many

from tests.resolving import Author, answered, books_query, messages


class ManyAtOnce(unittest.TestCase):
    ROOT = {"books": [{"title": title, "by": by} for title, by in (("a", 1), ("b", 2), ("c", 1))]}

    def resolve(self, author):
        return books_query("{ books { title author { name } } }").resolve(self.ROOT, {"Book": {"author": many(author)}})

    def test_all_of_a_round(self):
        told = []

        def authors(asks):
            told.append([(book["title"], arguments) for book, arguments in asks])
            return ({"name": f"author {book['by']}"} for book, _ in asks)

        data = answered(self.resolve(authors))
        self.assertEqual([book["author"]["name"] for book in data["books"]], ["author 1", "author 2", "author 1"])
        self.assertEqual(told, [[("a", {}), ("b", {}), ("c", {})]])

    def test_a_batch_a_level(self):
        told = []

        @many
        def books(asks):
            told.append([(author["name"], arguments) for author, arguments in asks])
            return [[{"title": f"by {author['name']}", "author": {"name": author["name"] + "'"}}] for author, _ in asks]

        query = books_query("{ found { ... on Author { x: books(first: 1) { title author { books { title } } } y: books { title } } } }")
        query.resolve({"found": [{"__typename": "Author", "name": name} for name in "ab"]}, {"Author": {"books": books}})
        first = [("a", {"first": 1}), ("a", {}), ("b", {"first": 1}), ("b", {})]
        self.assertEqual(sorted(told[0], key=str), sorted(first, key=str))
        self.assertEqual(told[1:], [[("a'", {}), ("b'", {})]])

    def test_failures(self):
        paths = [["books", at, "author"] for at in range(3)]
        for author, texts in (
            (lambda asks: 1 / 0, ["division by zero"] * 3),
            (lambda asks: [None], ["the resolver of Book.author gives 1 values for 3"] * 3),
            (lambda asks: "abc", ["the resolver of Book.author gives 0 values for 3"] * 3),
            (lambda asks: 7, ["'int' object is not iterable"] * 3),
        ):
            self.assertEqual(messages(self.resolve(author)), [(path, f"resolver error: {text}") for path, text in zip(paths, texts)])
        told = self.resolve(lambda asks: [KeyError("x"), {"name": "y"}, None])
        self.assertEqual(messages(told), [(paths[0], "resolver error: 'x'")])
        self.assertEqual(json.loads(told)["data"]["books"][1]["author"], {"name": "y"})


class Awaited(unittest.TestCase):
    def resolve(self, query, root, resolvers, **more):
        return asyncio.run(books_query(query).resolve_async(root, resolvers, **more))

    def test_all_of_a_round_at_once(self):
        running, most = [], []

        async def author(book, arguments):
            running.append(book)
            await asyncio.sleep(0)
            most.append(len(running))
            await asyncio.sleep(0)
            running.remove(book)
            return Author(book["title"])

        async def year(book, arguments):
            return await author(book, arguments) and 1815

        root = {"books": [{"title": title} for title in "abc"]}
        told = self.resolve("{ books { author { name } year } }", root, {"Book": {"author": author, "year": year}})
        self.assertEqual(answered(told), {"books": [{"author": {"name": title}, "year": 1815} for title in "abc"]})
        self.assertEqual(most, [6] * 6)

    def test_mixed_with_others(self):
        class Shelf:
            async def books(self, first):
                return [{"title": "a"}, {"title": "b"}][:first]

        @many
        async def years(asks):
            await asyncio.sleep(0)
            return [len(book["title"]) for book, _ in asks]

        told = self.resolve("{ books { title year } }", Shelf(), {"Book": {"year": years, "title": lambda book, _: book["title"] * 2}})
        self.assertEqual(answered(told), {"books": [{"title": "aa", "year": 1}, {"title": "bb", "year": 1}]})
        self.assertEqual(answered(self.resolve("{ books { title } }", {"books": []}, None)), {"books": []})

    def test_failures(self):
        async def fail(*_):
            await asyncio.sleep(0)
            raise LookupError("gone")

        root = {"books": [{"title": "a"}, {"title": "b"}]}
        for resolver in (fail, many(fail)):
            told = self.resolve("{ books { title year } }", root, {"Book": {"year": resolver}})
            self.assertEqual(messages(told), [(["books", at, "year"], "resolver error: gone") for at in range(2)])
        with self.assertRaises(RequestRefused):
            self.resolve("{ books { title } }", root, None, operation_name="X")

    def test_items_of_lists(self):
        async def later(value):
            await asyncio.sleep(0)
            if value is None:
                raise LookupError("gone")
            return value

        async def shelf(root, arguments):
            return [[{"title": "a"}, later({"title": "b"})], None, later([later({"title": "c"})])]

        told = self.resolve("{ shelf { title } found { __typename } }", {"found": [later({"__typename": "Book"}), later(None)]}, {"Query": {"shelf": shelf}})
        data = {"shelf": [[{"title": "a"}, {"title": "b"}], None, [{"title": "c"}]], "found": [{"__typename": "Book"}, None]}
        self.assertEqual(json.loads(told)["data"], data)
        self.assertEqual(messages(told), [(["found", 1], "resolver error: gone")])
        batch = many(lambda asks: [later(len(book["title"])) for book, _ in asks])
        told = self.resolve("{ books { year } }", {"books": [{"title": "a"}, {"title": "bb"}]}, {"Book": {"year": batch}})
        self.assertEqual(answered(told), {"books": [{"year": 1}, {"year": 2}]})
        with self.assertRaisesRegex(TypeError, "use resolve_async"):
            books_query("{ found { __typename } }").resolve({"found": [later(None)]})

    def test_cancelled(self):
        stopped = []

        async def wait(*_):
            try:
                await asyncio.sleep(60)
            finally:
                stopped.append(True)

        async def main():
            request = asyncio.ensure_future(books_query("{ books { title } entry { title } }").resolve_async(None, {"Query": {"books": wait, "entry": wait}}))
            await asyncio.sleep(0.01)
            request.cancel()
            with self.assertRaises(asyncio.CancelledError):
                await request

        asyncio.run(main())
        self.assertEqual(stopped, [True, True])


class Mutations(unittest.TestCase):
    SCHEMA = "type Query { x: Int } type Mutation { set(n: Int!): Holder fail: Int } type Holder { n: Int again: Holder }"
    QUERY = "mutation { a: set(n: 1) { n again { n } } fail b: set(n: 2) { n again { n } } c: set(n: 3) { n } }"
    WANTED = {"a": {"n": 1, "again": {"n": 1}}, "fail": None, "b": {"n": 2, "again": {"n": 2}}, "c": {"n": 3}}

    def setUp(self):
        self.told = []
        self.holder = {"n": 0}
        self.holder["again"] = self.holder

    def set(self, root, arguments):
        self.told.append(arguments["n"])
        self.holder["n"] = arguments["n"]
        return self.holder

    def fail(self, root, arguments):
        self.told.append("fail")
        raise ValueError("no")

    def test_one_after_the_other_and_each_whole(self):
        told = Schema(self.SCHEMA).query(self.QUERY).resolve(None, {"Mutation": {"set": self.set, "fail": self.fail}})
        self.assertEqual(json.loads(told)["data"], self.WANTED)
        self.assertEqual(messages(told), [(["fail"], "resolver error: no")])
        self.assertEqual(self.told, [1, "fail", 2, 3])

    def test_the_same_where_they_are_awaited(self):
        async def later(root, arguments):
            self.told.append("begun")
            await asyncio.sleep(0.001 * (4 - arguments["n"]))
            return self.set(root, arguments)

        told = asyncio.run(Schema(self.SCHEMA).query(self.QUERY).resolve_async(None, {"Mutation": {"set": later, "fail": self.fail}}))
        self.assertEqual(json.loads(told)["data"], self.WANTED)
        self.assertEqual(self.told, ["begun", 1, "fail", "begun", 2, "begun", 3])

    def test_for_many(self):
        resolver = many(lambda asks: [self.set(*ask) for ask in asks])
        told = Schema(self.SCHEMA).query("mutation { a: set(n: 1) { n } b: set(n: 2) { n } }").resolve(None, {"Mutation": {"set": resolver}})
        self.assertEqual(answered(told), {"a": {"n": 1}, "b": {"n": 2}})


if __name__ == "__main__":
    unittest.main()
