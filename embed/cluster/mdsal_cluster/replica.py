"""A follower of the log, over the library's stand-by."""
from __future__ import annotations

import re
import threading
from collections.abc import Sequence
from typing import Any

import mdsal

from .etcd import Event, Pair, Refused
from .log import SCRIPT, Log, Tail, index_of

FIRST = re.compile(rb'\d{8}\n{"commit":(\d+)')
LOADS = 5


def first_of(frames: bytes) -> int:
    """Returns the number of the first of the frames."""
    it = FIRST.match(frames)
    if not it:
        raise mdsal.BadStream("the snapshot does not begin with a frame")
    return int(it[1])


def feed(standby: mdsal.StandBy, frames: Sequence[bytes]) -> None:
    """Feeds the frames of each domain."""
    for domain, it in enumerate(frames):
        if it:
            standby.feed(it, domain)


class Replica:
    """The trees of the log up to `index`. One thread makes it follow; others may look. `revision` is that of etcd up to which it has the log."""

    def __init__(self, log: Log):
        self.log, self.lock = log, threading.Lock()
        self.standby: mdsal.StandBy | None = None
        self.script, self.revision, self.loads = 0, 0, 0

    @property
    def index(self) -> int | None:
        """The commit index, or nothing before the first frame."""
        with self.lock:
            return sum(self.standby.numbers) + self.script if self.standby else None

    @property
    def number(self) -> int | None:
        """The number of the last frame of domain 0, or nothing before the first."""
        with self.lock:
            return self.standby.number if self.standby else None

    def look(self, store: str, path: str, domain: int = 0) -> tuple[Any, int] | None:
        """Returns what is at the path, and the number of the domain's commit at which it is so; or nothing before the first frame."""
        with self.lock:
            return (self.standby.look(store, path, domain), self.standby.number_of(domain)) if self.standby else None

    def snapshot(self) -> tuple[int, list[bytes]]:
        """Returns the commit index, and a frame with all rows of each domain."""
        with self.lock:
            assert self.standby
            numbers = self.standby.numbers
            return sum(numbers) + self.script, [self.standby.snapshot(it) for it in range(len(numbers))]

    def load(self) -> bool:
        """Begins anew with the newest snapshot and what follows it. Returns whether there is a log."""
        start = self.log.start()
        if not start:
            return False
        fresh = mdsal.StandBy(start.text, [first_of(it) for it in start.frames])
        feed(fresh, start.frames)
        for pair in self.log.entries(start.index, start.revision):
            feed(fresh, self.log.frames_of(pair))
        with self.lock:
            old, self.standby = self.standby, fresh
            self.script, self.revision, self.loads = start.script, start.revision, self.loads + 1
        if old:
            old.close()
        return True

    def take(self, events: list[Event]) -> None:
        """Takes what a watch tells. Entries that it has already are left out; where another script begins, it begins anew."""
        for it in events:
            if it.is_put and index_of(it.pair) > (self.index or 0):
                self._take_entry(it.pair)
            self.revision = max(self.revision, it.pair.modified)

    def _take_entry(self, pair: Pair) -> None:
        if pair.value == SCRIPT:
            self.load()
            return
        frames = self.log.frames_of(pair)
        with self.lock:
            assert self.standby
            feed(self.standby, frames)

    def catch_up(self) -> Tail | None:
        """Takes all that the log has now. Returns the tail, or nothing if there is no log."""
        for _ in range(LOADS):
            tail, revision = self.log.end()
            if not tail or (not self.standby and not self.load()):
                return None
            try:
                self.take([Event(True, it) for it in self.log.entries(self.index or 0, revision)])
                if (self.index or 0) >= tail.index:
                    self.revision = max(self.revision, revision)
                    return tail
            except (mdsal.BadStream, Refused):
                pass  # older entries were deleted: begin with the snapshot
            self.load()
        raise RuntimeError("the log does not reach its tail")

    def lead(self, tail: Tail) -> mdsal.Broker:
        """Returns the broker that goes on after the tail. The replica is empty then."""
        with self.lock:
            assert self.standby and tuple(self.standby.numbers) == tail.numbers and self.script == tail.script
            broker, self.standby = self.standby.lead(tail.version), None
        return broker

    def drop(self) -> None:
        with self.lock:
            if self.standby:
                self.standby.close()
            self.standby = None
