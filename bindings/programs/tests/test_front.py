"""The front of the programs, as a user has it: below the folder that SUNWAKET_PREFIX names."""

import os
import pathlib
import pty
import re
import subprocess
import tempfile
import unittest
import urllib.request

PREFIX = pathlib.Path(os.environ.get("SUNWAKET_PREFIX", "/usr"))
NAMES = sorted(path.name for path in (PREFIX / "libexec" / "sunwaket").iterdir())
VERSION = (PREFIX / "share" / "sunwaket" / "VERSION").read_text(encoding="utf-8").strip()

SCHEMA = "type Query {\n  a: Int\n  book(of: Int): Book\n}\ntype Book { title: String }\n"
QUERY = 'query Q($n: Int) {\n  book(of: $n) { title }\n}\n'
WRONG_QUERY = "{\n  book {\n    titel\n  }\n}\n"
DATA = '{"book": {"title": "Emma"}}'
RESPONSE = b'{"data":{"book":{"title":"Emma"}}}\n'
REQUEST = b'{"schema":"type Query { a: Int }","query":"{ a }","data":{"a":7}}'
TERMINAL = {name: value for name, value in os.environ.items() if name != "NO_COLOR"} | {"TERM": "xterm", "COLUMNS": "80"}


def run(name, *words, given=b"", folder=None):
    """The status, what is written, and what is said beside it, of a program by its front."""
    made = subprocess.run([PREFIX / "bin" / name, *words], input=given, capture_output=True, cwd=folder, check=False)
    return made.returncode, made.stdout, made.stderr.decode()


def proved(name, *words, given=b""):
    """The status and what is written, of the proved program itself."""
    made = subprocess.run([PREFIX / "libexec" / "sunwaket" / name, *words], input=given, capture_output=True, check=False)
    return made.returncode, made.stdout


def on_terminal(*words, folder, env=None):
    """The status of `gql`, and what it writes to a terminal."""
    upper, lower = pty.openpty()
    with subprocess.Popen([PREFIX / "bin" / "gql", *words], stdin=subprocess.DEVNULL, stdout=lower, cwd=folder, env=env or TERMINAL) as made:
        os.close(lower)
        written = b""
        while True:
            try:
                part = os.read(upper, 65536)
            except OSError:
                break
            if not part:
                break
            written += part
    os.close(upper)
    return made.returncode, written.decode().replace("\r\n", "\n")


class Files(unittest.TestCase):
    """A folder with a schema, queries and data."""

    def setUp(self):
        room = tempfile.TemporaryDirectory()
        self.addCleanup(room.cleanup)
        self.folder = pathlib.Path(room.name)
        texts = {"s.graphqls": SCHEMA, "q.graphql": QUERY, "wrong.graphql": WRONG_QUERY, "data.json": DATA, "variables.json": '{"n": 1}'}
        for name, text in texts.items():
            (self.folder / name).write_text(text, encoding="utf-8")
        (self.folder / "request.json").write_bytes(REQUEST)


class Words(Files):
    """The words that all programs have, and those that go to the proved program as they are."""

    def test_help_and_version(self):
        for name in NAMES:
            status, written, _ = run(name, "--help")
            self.assertEqual((status, written.decode().partition("\n")[0].split()[:2]), (0, ["usage:", name]))
            self.assertEqual(run(name, "--version")[:2], (0, f"{name} (Sunwaket) {VERSION}\n".encode()))
            self.assertTrue((PREFIX / "share" / "man" / "man1" / f"{name}.1").is_file())

    def test_proved_words_are_untouched(self):
        rows = [(), ("nonsense",), ("answer",), ("check",), ("selftest", "3"), ("selftest", "03"), ("selftest",)]
        for words in rows:
            for given in (REQUEST, b"", b'{"schema":"type Query { a: Bok }","query":"{ a }"}'):
                self.assertEqual(run("gql", *words, given=given)[:2], proved("gql", *words, given=given), words)
        self.assertEqual(run("gql_cost", "10", "1", given=REQUEST)[:2], proved("gql_cost", "10", "1", given=REQUEST))
        self.assertEqual(run("gql_cost", "10")[:2], proved("gql_cost", "10"))
        self.assertEqual(run("gql_gateway", "a", "b")[:2], proved("gql_gateway", "a", "b"))

    def test_a_file_in_place_of_standard_input(self):
        file = self.folder / "request.json"
        for name, *words in [("gql", "answer"), ("gql", "check"), ("gql_cost", "10", "100"), ("gql_gateway",), ("gql_checker",), ("gql_client_schema",)]:
            wanted = proved(name, *words, given=REQUEST)
            self.assertEqual(run(name, *words, file)[:2], wanted)
            self.assertEqual(run(name, *words, "-", given=REQUEST)[:2], wanted)

    def test_what_cannot_be_read(self):
        for words in (("gql", "answer", "none.json"), ("gql", "check", "none.json"), ("gql", "check", "none", "q.graphql"), ("gql_gateway", "none"), ("gql_cost", "1", "1", ".")):
            status, written, said = run(*words, folder=self.folder)
            self.assertEqual((status, written), (4, b""), words)
            self.assertIn("none" if "none" in words[-1] or "none" in words else ".", said)


class Answer(Files):
    """`gql answer` of parts."""

    def ask(self, *words, given=b""):
        return run("gql", "answer", *words, given=given, folder=self.folder)

    def test_parts(self):
        parts = ("--schema", "s.graphqls", "--query", "q.graphql")
        self.assertEqual(self.ask(*parts, "--data", "data.json")[:2], (0, RESPONSE))
        self.assertEqual(self.ask(*parts, "--data", "-", "--variables", '{"n":1}', "--operation", "Q", given=DATA.encode())[:2], (0, RESPONSE))
        self.assertEqual(self.ask(*parts, "--variables", "@variables.json", "--data", "data.json")[:2], (0, RESPONSE))
        self.assertEqual(self.ask(*parts, "--operation", "R")[0], 1)

    def test_introspection(self):
        (self.folder / "i.graphql").write_text("{ __schema { queryType { name } } }", encoding="utf-8")
        status, written, _ = self.ask("--schema", "s.graphqls", "--query", "i.graphql", "--introspection")
        self.assertEqual((status, written), (0, b'{"data":{"__schema":{"queryType":{"name":"Query"}}}}\n'))

    def test_wrong_words_and_wrong_json(self):
        rows = [
            (("--schema", "s.graphqls"), b"", "--query"),
            (("--schema", "-", "--query", "-"), b"", "standard input"),
            (("--schema", "s.graphqls", "--query", "q.graphql", "--variables", '{"n":1},"introspection":true'), b"", "--variables:1:8: no JSON"),
            (("--schema", "s.graphqls", "--query", "q.graphql", "--data", "-"), b'{"a":\n?}', "-:2:1: no JSON"),
        ]
        for words, given, said in rows:
            status, written, why = self.ask(*words, given=given)
            self.assertEqual((status, written), (2, b""), words)
            self.assertIn(said, why)

    def test_a_number_that_the_engine_refuses_is_told_by_its_file(self):
        status, written, said = self.ask("--schema", "s.graphqls", "--query", "q.graphql", "--data", "-", given=b'{"a": 1.5}')
        self.assertEqual((status, said), (1, "gql: -: float at byte 6\n"))
        self.assertIn(b"request: float at byte", written)

    def test_bytes_that_are_no_utf8_are_refused_by_the_program(self):
        (self.folder / "bad.graphql").write_bytes(b"{ book { title } } # \xff")
        status, written, _ = self.ask("--schema", "s.graphqls", "--query", "bad.graphql")
        self.assertEqual((status, written[:10]), (1, b'{"errors":'))


class Check(Files):
    """`gql check` of files."""

    def check(self, *words, given=b""):
        return run("gql", "check", *words, given=given, folder=self.folder)

    def test_names_of_files(self):
        self.assertEqual(self.check("s.graphqls", "q.graphql")[:2], (0, b"ok\n"))
        self.assertEqual(self.check("s.graphqls")[:2], (0, b"ok\n"))
        self.assertEqual(self.check("-", given=REQUEST)[:2], (0, b"ok\n"))
        self.assertEqual(self.check("s.graphqls", "-", given=b"{ a }")[:2], (0, b"ok\n"))
        wanted = b"Error: type `Book` does not have a field `titel`\nwrong.graphql:3:5: here\n"
        self.assertEqual(self.check("s.graphqls", "wrong.graphql")[:2], (1, wanted))
        self.assertEqual(self.check("wrong.graphql", "q.graphql")[1].splitlines()[1].partition(b":")[0], b"wrong.graphql")

    def test_a_file_that_is_no_utf8(self):
        (self.folder / "bad.graphql").write_bytes(b"{\n a\n} # \xff")
        status, written, said = self.check("s.graphqls", "bad.graphql")
        self.assertEqual((status, written[:10], said), (1, b'{"errors":', "gql: bad.graphql: syntax at byte 9\n"))

    def test_wrong_words(self):
        for words in (("--nonsense",), ("a", "b", "c"), ("-", "-")):
            self.assertEqual(self.check(*words)[:2], (2, b""))
        self.assertEqual(self.check("--help")[0], 0)

    def test_a_terminal_shows_the_line(self):
        status, written = on_terminal("check", "s.graphqls", "wrong.graphql", folder=self.folder)
        plain = re.sub("\x1b\\[[0-9;]*m", "", written)
        self.assertEqual(status, 1)
        self.assertNotEqual(plain, written)
        self.assertEqual(
            plain,
            "Error: type `Book` does not have a field `titel`\nwrong.graphql:3:5: here\n    3 |     titel\n      |     ^\n",
        )

    def test_a_caret_below_tabs_and_wide_characters(self):
        (self.folder / "t.graphqls").write_text('type Query {\n\t"\u4e16\u00e4e\u0301" a: Bok\n}', encoding="utf-8")
        _, written = on_terminal("check", "t.graphqls", folder=self.folder)
        line, caret = re.sub("\x1b\\[[0-9;]*m", "", written).splitlines()[2:4]
        self.assertEqual(line, '    2 | \t"\u4e16\u00e4e\u0301" a: Bok')
        self.assertEqual(caret, "      | \t" + 10 * " " + "^")

    def test_a_long_line_is_cut(self):
        (self.folder / "long.graphqls").write_text("type Query { " + 500 * " " + "b: Bok" + 500 * " " + "}", encoding="utf-8")
        _, written = on_terminal("check", "long.graphqls", folder=self.folder)
        line, caret = re.sub("\x1b\\[[0-9;]*m", "", written).splitlines()[2:4]
        self.assertLess(len(line), 80)
        self.assertEqual(line[caret.index("^") :][:3], "Bok")

    def test_a_terminal_gets_no_commands_of_a_text(self):
        (self.folder / "e.graphqls").write_text('type Query { a: Bok } # \x1b[2J\x07', encoding="utf-8")
        _, written = on_terminal("check", "e.graphqls", folder=self.folder)
        self.assertNotIn("\x1b[2J", written)
        self.assertNotIn("\x07", written)

    def test_no_colours_where_none_are_wanted(self):
        status, written = on_terminal("check", "s.graphqls", "wrong.graphql", folder=self.folder, env=TERMINAL | {"NO_COLOR": "1"})
        self.assertEqual((status, written), (1, "Error: type `Book` does not have a field `titel`\nwrong.graphql:3:5: here\n"))


class Serve(Files):
    """`gql serve`."""

    def test_an_answer(self):
        words = [PREFIX / "bin" / "gql", "serve", "s.graphqls", "data.json", "--port", "0"]
        with subprocess.Popen(words, cwd=self.folder, stdout=subprocess.PIPE, stderr=subprocess.DEVNULL, text=True) as server:
            address = server.stdout.readline().strip()
            try:
                request = urllib.request.Request(address + "graphql", b'{"query":"{ book { title } }"}', {"Content-Type": "application/json"})
                with urllib.request.urlopen(request, timeout=60) as answer:
                    self.assertEqual(answer.read() + b"\n", RESPONSE)
            finally:
                server.terminate()


class Completion(Files):
    """What bash completes."""

    def complete(self, *words):
        script = (
            'source "$1"; shift; COMP_WORDS=("$@"); COMP_CWORD=$(($# - 1)); '
            'spec=$(complete -p "$1"); read -r _ _ function _ <<<"$spec"; "$function" 2>/dev/null; printf "%s\\n" "${COMPREPLY[@]}"'
        )
        file = PREFIX / "share" / "bash-completion" / "completions" / words[0]
        made = subprocess.run(["bash", "-c", script, "-", file, *words], cwd=self.folder, capture_output=True, text=True, check=False)
        return sorted(made.stdout.split())

    def test_words_and_files(self):
        self.assertEqual(self.complete("gql", "a"), ["answer"])
        self.assertEqual(self.complete("gql", "answer", "--sch"), ["--schema"])
        self.assertEqual(self.complete("gql", "answer", "--schema", ""), ["q.graphql", "s.graphqls", "wrong.graphql"])
        self.assertEqual(self.complete("gql", "check", "s"), ["s.graphqls"])
        self.assertEqual(self.complete("gql", "serve", "--po"), ["--port"])
        for name in NAMES:
            self.assertEqual(self.complete(name, "--v"), ["--version"])
        self.assertEqual(self.complete("gql_gateway", "re"), ["request.json"])


if __name__ == "__main__":
    unittest.main()
