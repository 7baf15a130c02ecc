"""The command: serves until it is interrupted or terminated, then lets the requests that run end."""

import signal
import sys
import threading

from .server import MockServer
from .settings import settings_of


def main(words):
    """Serves. The status is 1 where the files are wrong from the start or the port is taken."""
    settings = settings_of(words)
    sys.setrecursionlimit(20_000)
    try:
        server = MockServer(settings)
    except OSError as error:
        print(f"{settings.host}:{settings.port}: {error.strerror}", file=sys.stderr)
        return 1
    with server:
        if server.source.current() is None:
            return 1
        print(server.address, flush=True)
        for number in (signal.SIGTERM, signal.SIGINT):
            signal.signal(number, lambda *_: threading.Thread(target=server.end).start())
        server.serve_forever()
    return 0


if __name__ == "__main__":
    sys.exit(main(sys.argv[1:]))
