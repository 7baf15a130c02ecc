"""Requests a second to the mock server, beside a server over graphql-js on the same machine in the same run."""
import json
import os
import pathlib
import subprocess
import sys
import tempfile
import threading
import time
from http.client import HTTPConnection

SCHEMA = "type Query { items: [Item!]! } type Item { id: ID! name: String! count: Int }"
DATA = {"items": [{"id": str(number), "name": f"name {number}", "count": number} for number in range(20)]}
BODY = json.dumps({"query": "{ items { id name count } }"})
CONNECTIONS = 4

REFERENCE = """
const http = require('http'), { buildSchema, parse, validate, execute } = require('graphql');
const schema = buildSchema(process.argv[1]), rootValue = JSON.parse(process.argv[2]), known = new Map();
const server = http.createServer((request, response) => {
  let text = '';
  request.on('data', part => { text += part; });
  request.on('end', () => {
    const { query } = JSON.parse(text);
    if (!known.has(query)) { const document = parse(query); known.set(query, [document, validate(schema, document)]); }
    const answer = JSON.stringify(execute({ schema, document: known.get(query)[0], rootValue }));
    response.writeHead(200, { 'Content-Type': 'application/json', 'Content-Length': Buffer.byteLength(answer) }).end(answer);
  });
});
server.listen(0, '127.0.0.1', () => console.log(`http://127.0.0.1:${server.address().port}/`));
"""


def asked(port, until, times):
    """Asks over one connection until the time has come, and notes how long each answer took."""
    connection = HTTPConnection("127.0.0.1", port)
    while time.perf_counter() < until:
        start = time.perf_counter()
        connection.request("POST", "/graphql", BODY, {"Content-Type": "application/json"})
        connection.getresponse().read()
        times.append(time.perf_counter() - start)


def load(name, words, seconds, environment):
    """Starts a server that tells its address, asks it for so many seconds, and says how it did."""
    server = subprocess.Popen(words, stdout=subprocess.PIPE, stderr=subprocess.DEVNULL, text=True, env=environment)
    try:
        address = server.stdout.readline().strip()
        if not address:
            print(f"server: {name}: not there")
            return
        port, times = int(address.rsplit(":", 1)[1].strip("/")), []
        until = time.perf_counter() + seconds
        threads = [threading.Thread(target=asked, args=(port, until, times)) for _ in range(CONNECTIONS)]
        for thread in threads:
            thread.start()
        for thread in threads:
            thread.join()
        print(f"server: {name}: {len(times) / seconds:.0f} requests a second, the slowest {1000 * max(times):.0f} ms")
    finally:
        server.terminate()
        server.wait()


def tell_load(python, seconds):
    """Says how many requests a second the mock server and graphql-js answer, each for so many seconds."""
    with tempfile.TemporaryDirectory() as folder:
        schema, data = pathlib.Path(folder, "schema.graphql"), pathlib.Path(folder, "data.json")
        schema.write_text(SCHEMA, encoding="utf-8")
        data.write_text(json.dumps(DATA), encoding="utf-8")
        environment = os.environ | {"PYTHONPATH": str(python), "NODE_PATH": os.environ.get("NODE_PATH", "/usr/share/nodejs")}
        load("sunwaket.mock", [sys.executable, "-m", "sunwaket.mock", str(schema), str(data), "--port", "0"], seconds, environment)
        load("graphql-js under Node's http", ["node", "-e", REFERENCE, SCHEMA, json.dumps(DATA)], seconds, environment)
