"""Starts the shop: python3 -m shop [--database ADDRESS] [--port PORT] [--workers COUNT], in the folder `examples`."""

import argparse
import os

import uvicorn


def main():
    words = argparse.ArgumentParser(prog="shop", description="A bookshop over a database, with a page to ask it.")
    words.add_argument("--database", default="shop.sqlite3", help="a file of SQLite (shop.sqlite3), or postgresql://..")
    words.add_argument("--port", type=int, default=4000)
    words.add_argument("--workers", type=int, default=1, help="how many processes")
    given = words.parse_args()
    os.environ["SHOP_DATABASE"] = given.database
    print(f"http://127.0.0.1:{given.port}/", flush=True)
    uvicorn.run("shop.app:made", factory=True, port=given.port, workers=given.workers, log_level="warning")


if __name__ == "__main__":
    main()
