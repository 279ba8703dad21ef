"""Connections from nodes to members of etcd that a test can cut: bytes wait then, and arrive late, once they are mended."""
from __future__ import annotations

import contextlib
import socket
import socketserver
import threading
from collections.abc import Sequence
from urllib.parse import urlsplit

PIECE = 65536


class Wire(socketserver.ThreadingTCPServer):
    """A port on loopback whose connections go on to one member."""

    daemon_threads, request_queue_size = True, 64

    def __init__(self, endpoint: str):
        it = urlsplit(endpoint)
        self.far, self.whole = (it.hostname or "", it.port or 0), threading.Event()
        self.whole.set()
        super().__init__(("127.0.0.1", 0), Passage)
        self.endpoint = f"http://127.0.0.1:{self.server_address[1]}"
        threading.Thread(target=self.serve_forever, daemon=True).start()


class Passage(socketserver.BaseRequestHandler):
    """A connection: what comes from one end goes to the other."""

    def handle(self) -> None:
        assert isinstance(self.server, Wire)
        with contextlib.suppress(OSError), socket.create_connection(self.server.far) as far:
            threading.Thread(target=self.copy, args=(far, self.request), daemon=True).start()
            self.copy(self.request, far)

    def copy(self, source: socket.socket, sink: socket.socket) -> None:
        assert isinstance(self.server, Wire)
        with contextlib.suppress(OSError):
            while piece := source.recv(PIECE):
                self.server.whole.wait()
                sink.sendall(piece)
        for it in (source, sink):
            with contextlib.suppress(OSError):
                it.shutdown(socket.SHUT_RDWR)


class Wires:
    """The wires of one node, to each member."""

    def __init__(self, endpoints: Sequence[str]):
        self.wires = [Wire(it) for it in endpoints]
        self.endpoints = [it.endpoint for it in self.wires]

    def cut(self) -> None:
        for it in self.wires:
            it.whole.clear()

    def mend(self) -> None:
        for it in self.wires:
            it.whole.set()

    def close(self) -> None:
        self.mend()
        for it in self.wires:
            it.shutdown()
            it.server_close()
