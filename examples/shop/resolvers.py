"""The shop's resolvers. Those of a relation are asked for all objects of a level at once, and so a level is one statement."""

from sunwaket import many
from sunwaket.http import Fault, context

# The columns of each type, as GraphQL has them. `key` is the row's own; an id says the type too.
COLUMNS = {
    "Book": ("book", "key, title, year, price AS \"priceCents\", author AS author_key"),
    "Author": ("author", "key, name"),
    "Customer": ("customer", "key, name"),
    "Review": ("review", "key, stars, text, book AS book_key, customer AS customer_key"),
    "Order": ("orders", "key, state, customer AS customer_key"),
    "OrderLine": ("line", "key, count, price AS \"priceCents\", book AS book_key, orders AS order_key"),
}
MOST = 100


class Session:
    """What a request may use: the database, and the customer who asks."""

    def __init__(self, database, customer):
        self.database, self.customer = database, customer
        self.rows = database.rows


def rows_of(kind, rest, *values):
    """The rows of a type, each with its id and its type's name."""
    table, columns = COLUMNS[kind]
    found = context().rows(f"SELECT {columns} FROM {table} {rest}", *values)
    for row in found:
        row["id"], row["__typename"] = f"{kind}:{row['key']}", kind
    return found


def marks(values):
    """As many marks as there are values."""
    return ", ".join("?" * len(values))


def by_key(kind, keys):
    """The rows of some keys, by key, in one statement."""
    keys = sorted(set(keys))
    return {row["key"]: row for row in rows_of(kind, f"WHERE key IN ({marks(keys)})", *keys)} if keys else {}


def key_of(given, kind):
    """The key that an id names. Raises ValueError where it is the id of something else."""
    name, _, key = given.partition(":")
    if name != kind or not key.isdecimal() or len(key) > 9:
        raise ValueError(f"`{given}` is no id of a {kind}")
    return int(key)


def to_one(kind, column):
    """The resolver of a relation to one object, whose key stands in a column."""

    @many
    def resolve(asks):
        found = by_key(kind, [source[column] for source, _ in asks])
        return [found.get(source[column]) for source, _ in asks]

    return resolve


def to_many(kind, column):
    """The resolver of a relation to many objects, which have the key in their column: the first ones of each, in one statement."""
    table, columns = COLUMNS[kind]

    @many
    def resolve(asks):
        firsts = [first_of(arguments) for _, arguments in asks]
        keys = sorted({source["key"] for source, _ in asks})
        ranked = f"SELECT *, ROW_NUMBER() OVER (PARTITION BY {column} ORDER BY key) AS place FROM {table} WHERE {column} IN ({marks(keys)})"
        statement = f"SELECT {columns}, {column} AS own_key FROM ({ranked}) AS ranked WHERE place <= ? ORDER BY key"
        lists = {key: [] for key in keys}
        for row in context().rows(statement, *keys, max(firsts)):
            row["id"], row["__typename"] = f"{kind}:{row['key']}", kind
            lists[row["own_key"]].append(row)
        return [lists[source["key"]][:first] for (source, _), first in zip(asks, firsts)]

    return resolve


def first_of(arguments):
    """How many items are asked for. Raises ValueError where that is too many."""
    first = arguments.get("first")
    first = MOST if first is None else first
    if not 0 <= first <= MOST:
        raise ValueError(f"`first` is from 0 to {MOST}")
    return first


@many
def ratings(asks):
    keys = sorted({source["key"] for source, _ in asks})
    statement = f"SELECT book, SUM(stars) AS stars, COUNT(*) AS reviews FROM review WHERE book IN ({marks(keys)}) GROUP BY book"
    found = {row["book"]: {"stars": int(row["stars"]), "reviews": row["reviews"]} for row in context().rows(statement, *keys)}
    return [found.get(source["key"], {"stars": 0, "reviews": 0}) for source, _ in asks]


@many
def totals(asks):
    keys = sorted({source["key"] for source, _ in asks})
    statement = f"SELECT orders, SUM(count * price) AS total FROM line WHERE orders IN ({marks(keys)}) GROUP BY orders"
    found = {row["orders"]: int(row["total"]) for row in context().rows(statement, *keys)}
    return [found.get(source["key"], 0) for source, _ in asks]


def node(root, arguments):
    kind = arguments["id"].partition(":")[0]
    if kind not in COLUMNS or kind == "OrderLine":
        return None
    return one(kind, arguments["id"])


def one(kind, given):
    """The object of an id, or None."""
    key = key_of(given, kind)
    return by_key(kind, [key]).get(key)


ORDERS = {"TITLE": "title", "YEAR": "year", "PRICE": "price"}


def books(root, arguments):
    """A page of books. A cursor is the place in the order."""
    first, after = first_of(arguments), arguments.get("after")
    if after is not None and not (after.isdecimal() and len(after) <= 9):
        raise ValueError(f"`{after}` is no cursor")
    start, (where, values) = int(after or 0), where_of(arguments.get("filter") or {})
    order = ORDERS[arguments.get("order") or "TITLE"]
    found = rows_of("Book", f"{where} ORDER BY {order}, key LIMIT ? OFFSET ?", *values, first + 1, start)
    edges = [{"cursor": str(start + at + 1), "node": book} for at, book in enumerate(found[:first])]
    info = {"hasNextPage": len(found) > first, "endCursor": edges[-1]["cursor"] if edges else None}
    return {"edges": edges, "pageInfo": info, "total": lambda: context().rows(f"SELECT COUNT(*) AS all_of FROM book {where}", *values)[0]["all_of"]}


def where_of(given):
    """The condition of a filter, and its values."""
    parts, values = [], []
    if given.get("maxPriceCents") is not None:
        parts.append("price <= ?")
        values.append(given["maxPriceCents"])
    if given.get("titleContains") is not None:
        parts.append("LOWER(title) LIKE ?")
        values.append(f"%{given['titleContains'].lower()}%")
    if given.get("author") is not None:
        parts.append("author = ?")
        values.append(key_of(given["author"], "Author"))
    return ("WHERE " + " AND ".join(parts) if parts else ""), values


def search(root, arguments):
    text, first = f"%{arguments['text'].lower()}%", first_of(arguments)
    found = rows_of("Book", "WHERE LOWER(title) LIKE ? ORDER BY key LIMIT ?", text, first)
    return (found + rows_of("Author", "WHERE LOWER(name) LIKE ? ORDER BY key LIMIT ?", text, first))[:first]


def me(root, arguments):
    customer = context().customer
    return by_key("Customer", [customer]).get(customer) if customer else None


def customer_of():
    """The customer who asks. Raises PermissionError where nobody does."""
    if not context().customer:
        raise PermissionError("say who you are: `Authorization: Customer:1`")
    return context().customer


class Resolvers:
    """The resolvers, and who waits for reviews."""

    def __init__(self, listeners):
        self.listeners = listeners

    def review(self, root, arguments):
        customer, book = customer_of(), key_of(arguments["book"], "Book")
        if not 1 <= arguments["stars"] <= 5:
            raise ValueError("stars are from 1 to 5")
        if book not in by_key("Book", [book]):
            raise ValueError("there is no such book")
        key = context().database.add("review", stars=arguments["stars"], text=arguments["text"], book=book, customer=customer)
        made = by_key("Review", [key])[key]
        self.listeners.tell(made)
        return made

    def order(self, root, arguments):
        customer, lines = customer_of(), arguments["lines"]
        counts = [(key_of(line["book"], "Book"), line["count"]) for line in lines]
        found = by_key("Book", [book for book, _ in counts])
        if not 0 < len(counts) <= MOST or any(book not in found or not 0 < count <= MOST for book, count in counts):
            raise ValueError(f"an order has 1 to {MOST} lines, of books that there are, each of 1 to {MOST}")
        key = context().database.add("orders", state="OPEN", customer=customer)
        for book, count in counts:
            context().database.add("line", orders=key, book=book, count=count, price=found[book]["priceCents"])
        return by_key("Order", [key])[key]

    def fields(self):
        """The functions by types and fields."""
        return {
            "Query": {"node": node, "books": books, "search": search, "me": me} | {
                field: lambda root, arguments, kind=kind: one(kind, arguments["id"]) for field, kind in (("book", "Book"), ("author", "Author"))
            },
            "Mutation": {"review": self.review, "order": self.order},
            "Book": {"author": to_one("Author", "author_key"), "reviews": to_many("Review", "book"), "rating": ratings},
            "Author": {"books": to_many("Book", "author")},
            "Customer": {"orders": to_many("Order", "customer"), "reviews": to_many("Review", "customer")},
            "Review": {"book": to_one("Book", "book_key"), "customer": to_one("Customer", "customer_key")},
            "Order": {"customer": to_one("Customer", "customer_key"), "lines": to_many("OrderLine", "orders"), "totalCents": totals},
            "OrderLine": {"book": to_one("Book", "book_key")},
        }


def session_of(database):
    """What makes a session of a request."""

    def session(request):
        told = request.headers.get("authorization")
        try:
            return Session(database, key_of(told, "Customer") if told else None)
        except ValueError:
            raise Fault(401, "the header `Authorization` is that of no customer") from None

    return session
