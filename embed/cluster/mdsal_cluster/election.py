"""A term: won by a lease when nobody leads, and kept by renewing the lease."""
from __future__ import annotations

import contextlib
import socket
import threading
import time
from collections.abc import Callable
from typing import Any

from .etcd import Etcd, Json, Refused, Unknown
from .log import Holder, Log

PATIENCE = 1.0  # seconds of one look at the leader


def address_of(text: str) -> tuple[str, int]:
    """Returns the host and port of HOST:PORT."""
    host, _, port = text.rpartition(":")
    return host, int(port)


def is_gone(address: str) -> bool:
    """Whether the port closes or refuses within a second. A port that stays silent is not gone."""
    try:
        with socket.create_connection(address_of(address), timeout=PATIENCE) as link:
            return link.recv(1) == b""
    except TimeoutError:
        return False
    except OSError:
        return True


class Election(threading.Thread):
    """Knows who leads (`holder`). If the node may lead, it wins a term whenever there is no leader, calls `won`, and keeps the lease until `release`.

    With `seizes` it does not wait for the lease of a leader whose port closes: a term may be taken over at any time."""

    def __init__(self, log: Log, me: Json, lease: int, how: dict[str, bool]):
        super().__init__(daemon=True)
        self.log, self.me, self.seconds = log, me, lease
        self.may_lead, self.seizes = how["may_lead"], how["seizes"]
        self.holder: Holder | None = None
        self.term = 0
        self.won: Callable[[], Any] = lambda: None
        self._lease = ""

    def run(self) -> None:
        while True:
            try:
                self._keep() if self.term else self._look()
            except (Unknown, Refused):
                time.sleep(0.1)

    def release(self) -> None:
        """The node leads no more."""
        self.term = 0

    def _look(self) -> None:
        """Looks who leads; waits while somebody does, and campaigns if nobody does."""
        self.holder, revision = self.log.holder()
        if self.holder and self.seizes and self.holder.address != self.me["address"] and is_gone(self.holder.address):
            self._campaign(self.holder.term)
        elif self.holder and not self.seizes:
            self._wait(revision)
        elif not self.holder:
            self._campaign(0)
        else:
            time.sleep(PATIENCE / 10)

    def _wait(self, revision: int) -> None:
        """Returns when the leader's key is deleted, or after some time."""
        watcher = Etcd(self.log.etcd.endpoints)
        for events in watcher.watch((self.log.leader, self.log.leader + "\0"), revision + 1, PATIENCE):
            if events:
                return
        time.sleep(PATIENCE / 10)

    def _campaign(self, over: int) -> None:
        if not self.may_lead:
            time.sleep(PATIENCE / 10)
            return
        self._lease = self.log.etcd.grant(self.seconds)
        term = self.log.campaign(self.me, self._lease, over)
        if term:
            self.holder, self.term = Holder(self.me["name"], self.me["address"], term), term
            self.won()
        else:
            self.log.etcd.revoke(self._lease)

    def _keep(self) -> None:
        """Renews the lease until the node leads no more, and gives it up then. A lease that ended is noticed by the next comparison of the term."""
        while self.term:
            with contextlib.suppress(Unknown, Refused):
                self.log.etcd.keep_alive(self._lease)
            for _ in range(5):
                if self.term:
                    time.sleep(self.seconds / 20)
        self.log.etcd.revoke(self._lease)
