"""The shop of examples/ beside the same schema and database under graphql-core with data loaders, both under uvicorn, by wrk."""
import json
import os
import pathlib
import re
import socket
import subprocess
import sys
import tempfile
import time
import urllib.request

ROOT = pathlib.Path(__file__).resolve().parents[2]
NESTED = "query N($first: Int) { books(first: $first) { edges { node { title author { name } reviews(first: 2) { stars customer { name } } } } } }"
BODY = json.dumps({"query": NESTED, "variables": {"first": 20}})
SCRIPT = "wrk.method = 'POST'\nwrk.headers['Content-Type'] = 'application/json'\nwrk.body = [==[{body}]==]\n"
SERVERS = {"sunwaket": "shop.beside:ours", "graphql-core": "shop.beside:core"}
CONNECTIONS = (1, 8, 64)


def free_port():
    """A port that nothing listens at."""
    with socket.create_server(("127.0.0.1", 0)) as found:
        return found.getsockname()[1]


def fetched(port, path, body=None):
    """What a server answers."""
    request = urllib.request.Request(f"http://127.0.0.1:{port}{path}", body, {"Content-Type": "application/json"} if body else {})
    with urllib.request.urlopen(request, timeout=60) as answer:
        return answer.read()


def wait_for(port):
    """Waits until a server answers."""
    for _ in range(600):
        try:
            return fetched(port, "/statements")
        except OSError:
            time.sleep(0.1)
    raise RuntimeError("the server does not start")


def measured(port, connections, seconds, script):
    """Requests a second, the latency at 50 and at 99 % in milliseconds, and how many requests there were."""
    words = ["wrk", "-t1", f"-c{connections}", f"-d{seconds}s", "--latency", "-s", script, f"http://127.0.0.1:{port}/graphql"]
    said = subprocess.run(words, capture_output=True, text=True, check=True).stdout
    if "Non-2xx" in said:
        raise RuntimeError(said)
    scale = {"us": 0.001, "ms": 1, "s": 1000, "m": 60000}
    found = dict((part, float(number) * scale[unit]) for part, number, unit in re.findall(r"(50|99)%\s+([\d.]+)(us|ms|s|m)", said))
    requests = int(re.search(r"(\d+) requests in", said)[1])
    return float(re.search(r"Requests/sec:\s+([\d.]+)", said)[1]), found["50"], found["99"], requests


def megabytes(process):
    """What a process holds."""
    return int(pathlib.Path(f"/proc/{process.pid}/statm").read_text().split()[1]) * 4096 / 1e6


def processor_seconds(process):
    """The processor time that a process has taken."""
    user, system = pathlib.Path(f"/proc/{process.pid}/stat").read_text().rsplit(")", 1)[1].split()[11:13]
    return (int(user) + int(system)) / os.sysconf("SC_CLK_TCK")


def serve(name, python, folder, seconds, script):
    """Starts one server, has it asked, and says how it did. Gives its answer."""
    port = free_port()
    paths = os.pathsep.join([str(ROOT / "bindings" / "python"), str(ROOT / "examples"), os.environ.get("PYTHONPATH", "")])
    told = os.environ | {"PYTHONPATH": paths, "SHOP_DATABASE": f"{folder}/shop.sqlite3", "PYTHONDONTWRITEBYTECODE": "1"}
    words = [python, "-m", "uvicorn", "--factory", SERVERS[name], "--port", str(port), "--log-level", "error", "--no-access-log"]
    with subprocess.Popen(words, env=told, cwd=folder) as process:
        try:
            wait_for(port)
            before = int(fetched(port, "/statements"))
            answer = json.loads(fetched(port, "/graphql", BODY.encode()))
            statements = int(fetched(port, "/statements")) - before
            for connections in CONNECTIONS:
                start = processor_seconds(process)
                rate, half, most, requests = measured(port, connections, seconds, script)
                each = 1000 * (processor_seconds(process) - start) / max(1, requests)
                print(f"| {name} | {connections} | {rate:.0f} | {half:.1f} | {most:.1f} | {each:.1f} | {statements} | {megabytes(process):.0f} |", flush=True)
            return answer
        finally:
            process.terminate()


def main(seconds=10, python=sys.executable):
    """Prints a table of both."""
    with tempfile.TemporaryDirectory() as folder:
        script = pathlib.Path(folder, "ask.lua")
        script.write_text(SCRIPT.replace("{body}", BODY), encoding="utf-8")
        fill = "import sys; from shop.database import Database; Database(sys.argv[1]).fill()"
        paths = os.pathsep.join([str(ROOT / "bindings" / "python"), str(ROOT / "examples")])
        subprocess.run([python, "-c", fill, f"{folder}/shop.sqlite3"], env=os.environ | {"PYTHONPATH": paths}, check=True)
        print("| | connections | requests a second | ms, 50 % | ms, 99 % | processor ms a request | statements a request | MB |\n|---|---|---|---|---|---|---|---|")
        answers = [serve(name, python, folder, seconds, script) for name in SERVERS]
        print("the answers are the same" if answers[0] == answers[1] else f"THE ANSWERS DIFFER: {answers}")


if __name__ == "__main__":
    main(int(sys.argv[1]) if len(sys.argv) > 1 else 10, sys.argv[2] if len(sys.argv) > 2 else sys.executable)
