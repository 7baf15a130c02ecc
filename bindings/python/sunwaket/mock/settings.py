"""What a mock server is started with."""

import argparse
import dataclasses


@dataclasses.dataclass(frozen=True)
class Settings:
    """The words of the command."""

    schema: str
    data: object = None
    host: str = "127.0.0.1"
    port: int = 4000
    seed: int = 0
    introspection: bool = True
    depth: object = None
    cost: object = None
    latency: int = 0
    failures: dict = dataclasses.field(default_factory=dict)
    origin: object = None
    body_limit: int = 1 << 20
    time_limit: int = 30


def failure(word):
    """A field and the text that it fails with, of a word FIELD=TEXT."""
    field, equals, text = word.partition("=")
    if not field or not equals:
        raise argparse.ArgumentTypeError("is FIELD=TEXT")
    return field, text


def limit(word):
    """How many items a list is taken to have and how many nodes may be, of a word ITEMS:NODES."""
    items, colon, nodes = word.partition(":")
    if not colon or not all(part.isascii() and part.isdigit() and int(part) < 2**32 for part in (items, nodes)):
        raise argparse.ArgumentTypeError("is ITEMS:NODES, two numbers below 2**32")
    return int(items), int(nodes)


def parser():
    """The parser of the command's words."""
    made = argparse.ArgumentParser(prog="sunwaket.mock", description="Serves a GraphQL schema over plain data, or over data that are made up.")
    made.add_argument("schema", help="the file of the schema")
    made.add_argument("data", nargs="?", help="a JSON file: the object that queries begin at; without it data are made up")
    made.add_argument("--host", default="127.0.0.1", help="the address to listen at (default: this machine alone)")
    made.add_argument("--port", type=int, default=4000, help="the port (default 4000; 0: any that is free)")
    made.add_argument("--seed", type=int, default=0, help="a number that changes the data that are made up")
    made.add_argument("--no-introspection", dest="introspection", action="store_false", help="refuse `__schema` and `__type`")
    made.add_argument("--depth", type=int, metavar="N", help="refuse queries whose fields are nested deeper")
    made.add_argument(
        "--cost",
        type=limit,
        metavar="ITEMS:NODES",
        help="refuse, before they are executed, queries whose data can have more than NODES nodes where lists have up to ITEMS items",
    )
    made.add_argument("--latency", type=int, default=0, metavar="MS", help="wait this long before each answer")
    made.add_argument("--fail", type=failure, action="append", default=[], metavar="FIELD=TEXT", help="have each field of this name fail with this text")
    made.add_argument("--cors", dest="origin", metavar="ORIGIN", help="let pages of this origin ask (`*`: of any)")
    made.add_argument("--body-limit", type=int, default=1 << 20, metavar="BYTES", help="the most bytes of a request (default 1 MB)")
    made.add_argument("--time-limit", type=int, default=30, metavar="SECONDS", help="how long a connection may be silent (default 30)")
    return made


def settings_of(words):
    """The settings that the words of the command tell. Ends the program with a usage line where they tell none."""
    given = vars(parser().parse_args(words))
    given["failures"] = dict(given.pop("fail"))
    return Settings(**given)
