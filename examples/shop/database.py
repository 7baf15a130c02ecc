"""The shop's tables, in SQLite unless an address of PostgreSQL is told, and statements that are counted."""

import random
import sqlite3
import threading

TABLES = [
    "CREATE TABLE author (key INTEGER PRIMARY KEY, name TEXT NOT NULL)",
    "CREATE TABLE book (key INTEGER PRIMARY KEY, title TEXT NOT NULL, year INTEGER NOT NULL, price INTEGER NOT NULL, author INTEGER NOT NULL)",
    "CREATE TABLE customer (key INTEGER PRIMARY KEY, name TEXT NOT NULL)",
    "CREATE TABLE review (key INTEGER PRIMARY KEY, stars INTEGER NOT NULL, text TEXT NOT NULL, book INTEGER NOT NULL, customer INTEGER NOT NULL)",
    "CREATE TABLE orders (key INTEGER PRIMARY KEY, state TEXT NOT NULL, customer INTEGER NOT NULL)",
    "CREATE TABLE line (key INTEGER PRIMARY KEY, orders INTEGER NOT NULL, book INTEGER NOT NULL, count INTEGER NOT NULL, price INTEGER NOT NULL)",
    "CREATE INDEX book_author ON book (author)",
    "CREATE INDEX book_title ON book (title)",
    "CREATE INDEX review_book ON review (book)",
    "CREATE INDEX review_customer ON review (customer)",
    "CREATE INDEX orders_customer ON orders (customer)",
    "CREATE INDEX line_orders ON line (orders)",
]

FIRST = ["Jane", "Mary", "Anne", "Emily", "Charles", "George", "Thomas", "Ada", "Grace", "Alan"]
LAST = ["Austen", "Shelley", "Eliot", "Dickens", "Hardy", "Turner", "Stone", "Woods", "Rivers", "Field"]
NOUNS = ["Sea", "House", "Letter", "Winter", "Garden", "Clock", "Road", "Stranger", "Island", "Mirror"]


class Database:
    """Connections, one a thread. ``address`` is a file of SQLite, or ``postgresql://..``."""

    def __init__(self, address):
        self.address, self.is_postgres = address, address.startswith("postgresql://")
        self.statements, self._own = 0, threading.local()

    @property
    def connection(self):
        """This thread's connection."""
        if not hasattr(self._own, "connection"):
            self._own.connection = self._connected()
        return self._own.connection

    def _connected(self):
        if not self.is_postgres:
            return sqlite3.connect(self.address, timeout=10)
        import psycopg2  # Debian's python3-psycopg2

        return psycopg2.connect(self.address)

    def rows(self, statement, *values):
        """The rows of a statement, as objects. A ``?`` stands for a value."""
        self.statements += 1
        cursor = self.connection.cursor()
        try:
            cursor.execute(statement.replace("?", "%s") if self.is_postgres else statement, values)
            if cursor.description is None:
                self.connection.commit()
                return []
            names = [column[0] for column in cursor.description]
            found = [dict(zip(names, row)) for row in cursor.fetchall()]
            self.connection.commit()
            return found
        except Exception:
            self.connection.rollback()
            raise
        finally:
            cursor.close()

    def add(self, table, **values):
        """Adds a row, and gives its key."""
        names, marks = ", ".join(["key", *values]), ", ".join("?" * len(values))
        made = f"INSERT INTO {table} ({names}) SELECT COALESCE(MAX(key), 0) + 1, {marks} FROM {table} RETURNING key"
        return self.rows(made, *values.values())[0]["key"]

    def fill(self, books=1000, seed=1):
        """Makes the tables, with data that are made up."""
        chance = random.Random(seed)
        cursor = self.connection.cursor()
        for statement in TABLES:
            cursor.execute(statement)
        authors, customers = max(1, books // 5), max(1, books // 4)
        name = lambda at: f"{FIRST[at % 10]} {LAST[at // 10 % 10]}" + (f" {at // 100 + 1}" if at >= 100 else "")
        self._insert(cursor, "author", [(at + 1, name(at)) for at in range(authors)])
        self._insert(cursor, "customer", [(at + 1, name(at * 7 + 3)) for at in range(customers)])
        titles = [f"The {NOUNS[at % 10]} and the {NOUNS[at // 10 % 10]}" + (f" {at // 100 + 1}" if at >= 100 else "") for at in range(books)]
        self._insert(cursor, "book", [(at + 1, title, 1800 + chance.randrange(220), 500 + chance.randrange(3000), at % authors + 1) for at, title in enumerate(titles)])
        reviews = [(at + 1, 1 + chance.randrange(5), f"Text {at + 1}", at // 5 + 1, 1 + chance.randrange(customers)) for at in range(books * 5)]
        self._insert(cursor, "review", reviews)
        self._insert(cursor, "orders", [(at + 1, chance.choice(["OPEN", "SHIPPED"]), 1 + chance.randrange(customers)) for at in range(books)])
        self._insert(cursor, "line", [(at + 1, at // 2 + 1, 1 + chance.randrange(books), 1 + at % 3, 500 + at % 700) for at in range(books * 2)])
        self.connection.commit()
        cursor.close()

    def _insert(self, cursor, table, rows):
        marks = ", ".join(["%s" if self.is_postgres else "?"] * len(rows[0]))
        cursor.executemany(f"INSERT INTO {table} VALUES ({marks})", rows)

    def is_filled(self):
        """Whether the tables are there."""
        try:
            return bool(self.rows("SELECT 1 AS one FROM book LIMIT 1"))
        except Exception:
            return False
