"""The package in a real browser, as its folder is served. Skipped where there is none."""

import functools
import http.server
import pathlib
import threading
import unittest

from browsing import HAS_BROWSER, InBrowser

FOLDER = pathlib.Path(__file__).resolve().parents[2] / "node"
ANSWERED = r"""
const done = arguments[0];
import('/browser.mjs').then(async ({ ENGINE, Schema, QueryRefused, many }) => {
  const schema = new Schema('type Query { books: [Book] } type Book { title: String by: String }');
  const query = schema.query('{ books { title by } }');
  const told = [ENGINE, query.executeSync({ books: [{ title: 'ä\u{1f600}' }] }).toString()];
  const by = many(async (asks) => asks.map(([book]) => `by ${book.title}`));
  told.push((await query.resolve({ books: [{ title: 'Emma' }] }, { Book: { by } })).toString());
  try {
    schema.query('{ nope }');
  } catch (error) {
    told.push(error instanceof QueryRefused, error.message);
  }
  done(told);
}).catch((error) => done(String(error)));
"""
IN_WORKER = """
const done = arguments[0];
const text = `import { Schema } from '${location.origin}/browser.mjs';
  const nested = '{ node '.repeat(499) + '{ id }' + ' }'.repeat(499);
  const schema = new Schema('type Query { node: Node } type Node { node: Node id: ID }');
  postMessage(schema.query(nested).executeSync({ node: null }).toString());`;
const worker = new Worker(URL.createObjectURL(new Blob([text], { type: 'text/javascript' })), { type: 'module' });
worker.onmessage = ({ data }) => done(data);
worker.onerror = (error) => done(String(error.message));
"""


class Handler(http.server.SimpleHTTPRequestHandler):
    """Gives the files of a folder, and an empty page."""

    def do_GET(self):
        if self.path != "/":
            return super().do_GET()
        self.send_response(200)
        self.send_header("Content-Type", "text/html")
        self.end_headers()
        self.wfile.write(b"<!doctype html><html data-ready><link rel=icon href=data:,>")
        return None

    def log_message(self, *_given):
        """Says nothing."""


@unittest.skipUnless(HAS_BROWSER, "there is no Selenium, or no Chromium with its driver")
class Browser(InBrowser):
    def setUp(self):
        server = http.server.ThreadingHTTPServer(("127.0.0.1", 0), functools.partial(Handler, directory=FOLDER))
        threading.Thread(target=server.serve_forever, daemon=True).start()
        self.addCleanup(server.server_close)
        self.addCleanup(server.shutdown)
        self.open_page(f"http://127.0.0.1:{server.server_port}/")
        self.page.set_script_timeout(60)

    def tearDown(self):
        self.assertEqual(self.console(), [])

    def test_the_package_answers(self):
        told = self.page.execute_async_script(ANSWERED)
        self.assertEqual(told[0], "wasm")
        self.assertEqual(told[1], '{"data":{"books":[{"title":"ä\U0001f600","by":null}]}}')
        self.assertEqual(told[2], '{"data":{"books":[{"title":"Emma","by":"by Emma"}]}}')
        self.assertEqual(told[3:], [True, "type `Query` does not have a field `nope`"])

    def test_a_worker_answers_a_deep_query(self):
        self.assertEqual(self.page.execute_async_script(IN_WORKER), '{"data":{"node":null}}')


if __name__ == "__main__":
    unittest.main()
