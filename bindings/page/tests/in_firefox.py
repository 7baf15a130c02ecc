"""The playground in Firefox, where that is here, without a driver: a server gives the page with a line that types a query and sends back what the
page shows. Its last line is what was shown."""

import http.server
import pathlib
import shutil
import subprocess
import sys
import tempfile
import threading

FILE = pathlib.Path(__file__).resolve().parents[2] / "out" / "playground.html"
PATIENCE = 180
LINE = """<script>
addEventListener('error', (event) => fetch('/shown', { method: 'POST', body: event.message }));
const at = (id) => document.getElementById(id);
const settle = setInterval(() => {
  if (!at('response').textContent.includes('Emma')) return;
  clearInterval(settle);
  at('query').focus();
  at('query').select();
  document.execCommand('insertText', false, 'query ($title: String!) { book(title: $title) { y');
  document.execCommand('insertText', false, 'e');
  setTimeout(() => {
    const suggested = at('suggestions').textContent;
    document.execCommand('insertText', false, 'ar nope } }');
    setTimeout(() => {
      const shown = [suggested, document.querySelector('mark').textContent, at('cost').textContent, at('errors').textContent];
      fetch('/shown', { method: 'POST', body: JSON.stringify(shown) });
    }, 2000);
  }, 1000);
}, 100);
</script>"""
SHOWN = '["yearInt","nope","?","type `Book` does not have a field `nope`  Query 1:54"]'


class Handler(http.server.BaseHTTPRequestHandler):
    """Gives the page, and takes what it shows."""

    def do_GET(self):
        body = FILE.read_bytes() + LINE.encode()
        self.send_response(200)
        self.send_header("Content-Type", "text/html; charset=utf-8")
        self.send_header("Content-Length", str(len(body)))
        self.end_headers()
        self.wfile.write(body)

    def do_POST(self):
        self.server.shown = self.rfile.read(int(self.headers["Content-Length"])).decode()
        self.send_response(204)
        self.end_headers()
        self.server.is_shown.set()

    def log_message(self, *_given):
        """Says nothing."""


def main():
    server = http.server.ThreadingHTTPServer(("127.0.0.1", 0), Handler)
    server.shown, server.is_shown = None, threading.Event()
    threading.Thread(target=server.serve_forever, daemon=True).start()
    with tempfile.TemporaryDirectory(ignore_cleanup_errors=True) as profile:
        words = [shutil.which("firefox-esr") or "firefox", "--headless", "--no-remote", "--profile", profile, f"http://127.0.0.1:{server.server_port}/"]
        with subprocess.Popen(words, stdout=subprocess.DEVNULL, stderr=subprocess.DEVNULL) as firefox:
            server.is_shown.wait(PATIENCE)
            firefox.terminate()
    print(server.shown)
    return 0 if server.shown == SHOWN else 1


if __name__ == "__main__":
    sys.exit(main())
