"""Requests with a large response each, for the response checker."""
import json

from shared.hostile_requests import fields, request


def checked(schema, query, data, response):
    """A request with a response."""
    return request(schema, query, data=data, response=json.dumps(response, separators=(",", ":")))


def error(column, path):
    """The fault of a text at a place of numbers."""
    return {"message": 'resolver returned "x", expected Int', "locations": [{"line": 1, "column": column}], "path": path}


def failing_items(count):
    """A list of so many items, with an error at each."""
    response = {"errors": [error(2, ["l", index]) for index in range(count)], "data": {"l": [None] * count}}
    return checked("type Query{l:[Int]}", "{l}", {"l": ["x"] * count}, response)


def failing_fields(count):
    """An object of so many fields, with an error at each, listed from the last on."""
    keys = fields(count).split()
    errors, column = [], 2
    for key in keys:
        errors.append(error(column, [key]))
        column += len(key) + 1
    schema = "type Query{" + " ".join(f"{key}:Int" for key in keys) + "}"
    return checked(schema, "{" + fields(count) + "}", dict.fromkeys(keys, "x"), {"errors": errors[::-1], "data": dict.fromkeys(keys)})


def far_errors(count):
    """So many errors at places that there are not: past the end of a list, below a number, at other keys."""
    paths = [["l", 2 + number] for number in range(0, count, 3)] + [["l", 0, f"x{number}"] for number in range(0, count, 3)]
    paths += [[f"x{number}", number, "l"] for number in range(0, count, 3)]
    response = {"errors": [error(2, path) for path in paths], "data": {"l": [1, 2]}}
    return checked("type Query{l:[Int]}", "{l}", {"l": [1, 2]}, response)


def one_place(count):
    """One error, listed so many times."""
    return checked("type Query{f:Int}", "{f}", {"f": "x"}, {"errors": [error(2, ["f"])] * count, "data": {"f": None}})


def explained_items(count):
    """A list of so many objects, as they were resolved."""
    items = [{"a": number, "b": str(number)} for number in range(count)]
    return checked("type Query{l:[T]} type T{a:Int b:String}", "{l{a b}}", {"l": items}, {"data": {"l": items}})
