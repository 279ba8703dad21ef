"""Lines of JSON over TCP: each line is a request, and has one line as its answer. A connection that is closed has no answer."""
from __future__ import annotations

import json
import socket
import socketserver
import threading
from collections.abc import Callable
from typing import Any

LINE = 4_000_000  # bytes of the longest request
Answerer = Callable[[dict[str, Any]], dict[str, Any] | None]


def request_of(line: bytes) -> dict[str, Any]:
    """Returns the request of a line; an empty one, which has no good answer, if it is none."""
    try:
        it = json.loads(line)
    except (ValueError, RecursionError):
        return {}
    return it if isinstance(it, dict) else {}


class Port(socketserver.ThreadingTCPServer):
    """A port whose connections each have a thread, and an answerer of their own. One that answers nothing closes the connection."""

    allow_reuse_address, daemon_threads, request_queue_size = True, True, 128

    def __init__(self, address: tuple[str, int], connected: Callable[[], Answerer]):
        self.connected = connected
        super().__init__(address, Connection)

    def start(self) -> None:
        threading.Thread(target=self.serve_forever, daemon=True).start()


class Connection(socketserver.StreamRequestHandler):
    """The requests of a connection, one after another."""

    disable_nagle_algorithm = True

    def handle(self) -> None:
        assert isinstance(self.server, Port)
        answerer = self.server.connected()
        try:
            while (line := self.rfile.readline(LINE)).endswith(b"\n"):
                answer = answerer(request_of(line))
                if answer is None:
                    return
                self.wfile.write(json.dumps(answer).encode() + b"\n")
        except OSError:
            return


class Link:
    """A connection to a port, of one thread."""

    def __init__(self, address: tuple[str, int], timeout: float):
        self.socket = socket.create_connection(address, timeout=timeout)
        self.socket.setsockopt(socket.IPPROTO_TCP, socket.TCP_NODELAY, 1)
        self.file = self.socket.makefile("rb")

    def ask(self, request: dict[str, Any]) -> dict[str, Any]:
        """Returns the answer. Raises `OSError` if there is none."""
        self.socket.sendall(json.dumps(request).encode() + b"\n")
        line = self.file.readline()
        if not line.endswith(b"\n"):
            raise ConnectionError("the connection was closed without an answer")
        return json.loads(line)

    def close(self) -> None:
        self.file.close()
        self.socket.close()
