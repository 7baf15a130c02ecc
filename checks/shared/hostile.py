"""The shop of examples/ under load for a while: right, random, damaged and hostile requests at once, and the server killed and started in
between. No answer is wrong, and memory stays within 1.2 times what it was after a tenth of the time."""
import http.client
import json
import os
import pathlib
import random
import subprocess
import sys
import tempfile
import threading
import time

from shared.beside import ROOT, free_port, megabytes

NESTED = "query($first: Int) { books(first: $first) { edges { node { id author { id } reviews(first: 2) { book { id } } } } } }"
DEEP = "{ books { edges { node " + "{ author { books " * 200 + "{ id }" + "} }" * 200 + " } } }"
GROWTH = 1.2
CLIENTS = 6


def hostile(chance):
    """A body that is no right request, or asks for too much; each is answered by an error."""
    whole = json.dumps({"query": NESTED, "variables": {"first": 3}}).encode()
    spread = "{ ...F0 } " + " ".join(f"fragment F{at} on Query {{ ...F{at + 1} ...F{at + 1} }}" for at in range(40)) + " fragment F40 on Query { __typename }"
    bodies = [
        b"", b"[" * 5000, b"{" * 100, whole[: chance.randrange(len(whole))], b"\xff" + whole,
        json.dumps({"query": DEEP}).encode(),
        json.dumps({"query": "{ " + "books { total } " * 2000}).encode(),
        json.dumps({"query": "{ books(first: 99) { edges { node { author { books(first: 100) { reviews(first: 100) { id } } } } } } }"}).encode(),
        json.dumps({"query": spread, "variables": []}).encode(),
        json.dumps({"query": None, "extensions": {"persistedQuery": {"version": 1, "sha256Hash": "0" * 64}}}).encode(),
        json.dumps({"query": NESTED, "variables": {"first": "x"}}).encode(),
        json.dumps({"query": NESTED, "operationName": "nope"}).encode(),
    ]
    return chance.choice(bodies)


def damaged(chance):
    """A right request some of whose bytes are others."""
    body = bytearray(json.dumps({"query": NESTED, "variables": {"first": 2}}).encode())
    for _ in range(chance.randrange(1, 5)):
        body[chance.randrange(len(body))] = chance.randrange(256)
    return bytes(body)


def is_right(body, first):
    """Whether an answer is the one to NESTED with so many books."""
    edges = json.loads(body)["data"]["books"]["edges"]
    return len(edges) == first and all(review["book"]["id"] == edge["node"]["id"] for edge in edges for review in edge["node"]["reviews"])


class Load:
    """What the clients share: where the server is, until when they ask, and what they saw."""

    def __init__(self, port, seconds):
        self.port, self.until, self.lock = port, time.monotonic() + seconds, threading.Lock()
        self.is_down, self.counts, self.wrong = False, {}, []

    def client(self, seed):
        """Asks until the end."""
        chance, at = random.Random(seed), 0
        while time.monotonic() < self.until:
            at += 1
            first = chance.randrange(1, 30)
            name = chance.choice(["right", "new", "damaged", "hostile"])
            text = NESTED if name == "right" else NESTED + f" # {seed} {at}"
            right = json.dumps({"query": text, "variables": {"first": first}}).encode()
            body = right if name in ("right", "new") else (damaged if name == "damaged" else hostile)(chance)
            self.ask(name, body, first)

    def ask(self, name, body, first):
        """Sends one request, and notes what came of it."""
        connection = http.client.HTTPConnection("127.0.0.1", self.port, timeout=120)
        try:
            connection.request("POST", "/graphql", body, {"Content-Type": "application/json", "Accept": "application/graphql-response+json"})
            answer = connection.getresponse()
            status, told = answer.status, answer.read()
        except OSError as error:
            self.note("down", None if self.is_down else f"{name}: {error!r}")
            time.sleep(0.1)
            return
        except http.client.HTTPException as error:
            self.note("down", None if self.is_down else f"{name}: {error!r}")
            return
        finally:
            connection.close()
        self.note(name, self.fault(name, status, told, first))

    def fault(self, name, status, told, first):
        """What is wrong with an answer, or None."""
        if name in ("right", "new"):
            return None if status == 200 and is_right(told, first) else f"{name}: {status} {told[:200]}"
        response = json.loads(told)
        is_error = status in (200, 400) and "errors" in response
        return None if is_error or (name == "damaged" and status == 200 and "data" in response) else f"{name}: {status} {told[:200]}"

    def note(self, name, fault):
        """Counts an answer."""
        with self.lock:
            self.counts[name] = self.counts.get(name, 0) + 1
            if fault:
                self.wrong.append(fault)


def started(python, folder, port):
    """The shop's process, once it answers."""
    paths = os.pathsep.join([str(ROOT / "bindings" / "python"), str(ROOT / "examples")])
    told = os.environ | {"PYTHONPATH": paths, "SHOP_DATABASE": f"{folder}/shop.sqlite3", "PYTHONDONTWRITEBYTECODE": "1"}
    words = [python, "-m", "uvicorn", "--factory", "shop.app:made", "--port", str(port), "--log-level", "critical", "--no-access-log"]
    process = subprocess.Popen(words, env=told, cwd=folder, stderr=subprocess.DEVNULL)
    for _ in range(1200):
        try:
            connection = http.client.HTTPConnection("127.0.0.1", port, timeout=5)
            connection.request("GET", "/status")
            connection.getresponse().read()
            return process
        except OSError:
            time.sleep(0.1)
    raise RuntimeError("the shop does not start")


def watched(load, process, seconds):
    """What the process held after a tenth of the time, and at most after that."""
    early, most = None, 0.0
    start = time.monotonic()
    while time.monotonic() < start + seconds:
        time.sleep(0.5)
        if time.monotonic() > start + seconds / 10:
            early = early or megabytes(process)
            most = max(most, megabytes(process))
    return early, most


def main(seconds, python=sys.executable):
    """Runs it; gives whether all was right."""
    with tempfile.TemporaryDirectory() as folder:
        port = free_port()
        process = started(python, folder, port)
        load = Load(port, seconds)
        clients = [threading.Thread(target=load.client, args=(seed,)) for seed in range(CLIENTS)]
        for client in clients:
            client.start()
        try:
            time.sleep(seconds / 10)
            load.is_down = True
            process.kill()
            process.wait()
            process = started(python, folder, port)
            load.is_down = False
            left = load.until - time.monotonic()
            early, most = watched(load, process, max(2, left - 1))
            for client in clients:
                client.join()
        finally:
            process.kill()
            process.wait()
    print(f"server: {load.counts} in {seconds:.0f} s; {early:.0f} MB, at most {most:.0f}; {len(load.wrong)} wrong")
    print("".join(f"  {fault}\n" for fault in load.wrong[:5]), end="")
    return not load.wrong and most <= GROWTH * early


if __name__ == "__main__":
    sys.exit(0 if main(float(sys.argv[1]), *sys.argv[2:]) else 1)
