"""As much of Redis' protocol as a store of texts takes (RESP 2)."""

from __future__ import annotations

import socket
import threading
from typing import Any, BinaryIO, Optional

# How long a server may take, and the longest reply that is read.
PATIENCE = 2.0
LONGEST = 64 << 20


class Redis:
    """A connection, which is made when it is first needed and made anew when it is lost. One thread at a time uses it."""

    def __init__(self, host: str, port: int, password: Optional[str] = None):
        self._address, self._password = (host, port), password
        self._lock = threading.Lock()
        self._socket: Optional[socket.socket] = None
        self._file: Optional[BinaryIO] = None

    def ask(self, *words: str) -> Any:
        """The reply to a command: bytes, a number or None. Raises ``OSError`` where there is no server, ``ValueError`` where it refuses."""
        with self._lock:
            is_new = self._socket is None
            try:
                return self._asked(words)
            except OSError:
                self.close()
                if is_new:
                    raise
                return self._asked(words)

    def close(self) -> None:
        """Ends the connection."""
        for held in (self._file, self._socket):
            if held is not None:
                held.close()
        self._socket = self._file = None

    def __del__(self) -> None:
        self.close()

    def _asked(self, words: Any) -> Any:
        if self._socket is None:
            self._socket = socket.create_connection(self._address, PATIENCE)
            self._file = self._socket.makefile("rb")
            if self._password is not None:
                self._send(("AUTH", self._password))
        return self._send(words)

    def _send(self, words: Any) -> Any:
        assert self._socket is not None
        parts = [word.encode("utf-8") for word in words]
        told = b"".join(b"$%d\r\n%s\r\n" % (len(part), part) for part in parts)
        self._socket.sendall(b"*%d\r\n%s" % (len(parts), told))
        return self._reply()

    def _reply(self) -> Any:
        assert self._file is not None
        line = self._file.readline()
        if not line.endswith(b"\r\n"):
            raise OSError("the connection was closed")
        kind, rest = line[:1], line[1:-2]
        if kind == b"-":
            raise ValueError(rest.decode("utf-8", "replace"))
        if kind != b"$":
            return rest
        length = int(rest)
        if length < 0:
            return None
        if length > LONGEST:
            self.close()
            raise OSError("the reply is too long")
        return self._file.read(length + 2)[:-2]
