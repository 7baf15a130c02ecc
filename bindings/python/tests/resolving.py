"""What the tests of requests by resolvers have in common."""

import json

from sunwaket import Schema

BOOKS = """
    type Query { book(title: String!): Book books(first: Int = 2): [Book!] entry: Entry found: [Found] shelf: [[Book]] }
    interface Entry { title: String }
    union Found = Book | Author
    type Book implements Entry { title: String! year: Int author: Author cover: Cover }
    type Author implements Entry { title: String name: String! books(first: Int): [Book!]! }
    enum Cover { CLOTH PAPER }
"""


def books_query(text):
    return Schema(BOOKS).query(text)


def answered(response):
    """The data of a response without errors."""
    told = json.loads(response)
    assert list(told) == ["data"], response
    return told["data"]


def messages(response):
    """The errors of a response: their paths and messages."""
    return [(error.get("path"), error["message"]) for error in json.loads(response).get("errors", [])]


class Author:
    def __init__(self, name, *books):
        self.name, self.all = name, books

    def books(self, first=None):
        return self.all[:first]
