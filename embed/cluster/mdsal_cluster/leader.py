"""The broker of a term: the steps of all clients, their appends, and the answers.

The threads of clients make their steps (`make`), one after another, while the last append is under way; then they wait. One thread (`run`) takes
all that was made since, with its frames, appends the frames in one request, and answers. So appends are batched by the load itself, and no client is
answered before what it did, and what it saw, is durable. A batch without frames is answered after a comparison of the term alone, which began after
its steps: so no read is stale.
"""
from __future__ import annotations

import json
import threading
from dataclasses import dataclass, field
from typing import Any

import mdsal

from .log import Log, Tail

IDLE = 0.3  # seconds after which a leader without work looks whether it still is one
LAST_CLIENT = 60_000  # an epoch begins before the library's numbers of clients end
OWN = 0  # the node's own number as a client


class NotLeading(Exception):
    """This node does not lead: nothing was made."""


class NoAnswer(Exception):
    """The term ended before the answer: the steps will be in the log, or not."""


class Ended(Exception):
    """The epoch that the request belongs to is over: nothing was made."""


@dataclass
class Session:
    """A connection of a client: its number, in an epoch."""

    era: list[int] = field(default_factory=list)
    client: int = OWN


@dataclass
class Made:
    """A request whose steps were made; `answer` may be told once `done` is set, if `is_durable`."""

    answer: dict[str, Any]
    done: threading.Event = field(default_factory=threading.Event)
    is_durable: bool = False


@dataclass(frozen=True)
class Renewal:
    """Another script, with a snapshot of each domain by it, and the tail after it."""

    script: bytes
    frames: list[bytes]
    tail: Tail


@dataclass(frozen=True)
class Batch:
    """What was made since the last append: the requests, the frames of each domain, and the tail with them; and another script, if one begins."""

    made: list[Made]
    frames: list[bytes]
    tail: Tail
    renewal: Renewal | None = None


def text_of(script: Any) -> bytes:
    """Returns the text of a script."""
    return script.encode() if isinstance(script, str) else json.dumps(script).encode()


class Leader:
    """Leads in one term, until `Fenced`. `epoch` is the number of shared calls after which the next epoch begins, `script` the number of the script."""

    def __init__(self, log: Log, term: int, broker: mdsal.Broker, epoch: int, script: int = 0):
        self.log, self.term, self.broker, self.epoch = log, term, broker, epoch
        self.script = script
        self.tail = self._tail()
        self.era, self.bases, self.room, self.clients = [term, 0], self.tail.numbers, broker.left, OWN
        self.is_over = False
        self._made: list[Made] = []
        self._renewals: list[tuple[Made, bytes]] = []
        self._under_way = Batch([], [], self.tail)
        self._lock = threading.Condition()

    # ---- the clients' threads

    def make(self, session: Session, request: dict[str, Any]) -> dict[str, Any]:
        """Makes the steps or the look of a request, and returns its answer once it is durable."""
        with self._lock:
            if self.is_over:
                raise NotLeading
            if "renew" in request:
                made = Made({})
                self._renewals.append((made, text_of(request["renew"])))
            else:
                made = self.waiting(self._look(request) if "look" in request else self._steps(session, request))
                self._made.append(made)
            self._lock.notify()
        made.done.wait()
        if not made.is_durable:
            raise NoAnswer
        return made.answer

    def waiting(self, answer: dict[str, Any]) -> Made:
        """Returns an answer that may not be told yet."""
        return Made(answer)

    def _look(self, request: dict[str, Any]) -> dict[str, Any]:
        store, path, *domain = request["look"]
        value = self.broker.look(store, path, *domain)
        return {"value": value, "number": self.broker.number_of(*domain or [0])}

    def _steps(self, session: Session, request: dict[str, Any]) -> dict[str, Any]:
        """Makes steps in turn. A request that names an epoch belongs to it: its slots, listeners and mounts are those of that epoch."""
        if "era" in request and not request["era"] == session.era == self.era:
            raise Ended
        if session.era != self.era:
            self.clients += 1
            session.era, session.client = self.era, self.clients
        replies = [self._step(session.client, it) for it in request["steps"]]
        return {"replies": replies, "bases": self.bases, "era": self.era}

    def _step(self, client: int, step: Any) -> str:
        """Returns the text of a reply; `error NAME` if there is none. The steps before and after it are made all the same."""
        try:
            return self.broker.step(client, step)
        except (mdsal.Error, MemoryError, ValueError) as why:
            return f"error {type(why).__name__}"

    # ---- the thread that appends

    def run(self) -> None:
        """Appends and answers until the term ends: then it raises `Fenced`."""
        try:
            while True:
                self._under_way = self._taken()
                self._write(self._under_way)
                self._tell(self._under_way)
        finally:
            self._end()

    def _write(self, batch: Batch) -> None:
        """Makes a batch durable. Without frames the term alone is compared."""
        if batch.tail > self.tail:
            self.log.append(self.term, self.tail, batch.tail, batch.frames)
            self.tail = batch.tail
        elif not batch.renewal:
            self.log.confirm(self.term)
        if batch.renewal:
            self.log.renew(self.term, self.tail, batch.renewal.script, batch.renewal.frames, batch.renewal.tail)
            self.tail = batch.renewal.tail

    @staticmethod
    def _tell(batch: Batch) -> None:
        for it in batch.made:
            it.answer.setdefault("number", batch.tail.numbers[0])
            it.is_durable = True
            it.done.set()

    def _tail(self) -> Tail:
        return Tail(tuple(self.broker.numbers), self.broker.version, self.script)

    def _taken(self) -> Batch:
        """Waits for requests, for a while, and takes them with the frames of all commits so far. Begins the next epoch then, if it is due."""
        with self._lock:
            if not self._made and not self._renewals:
                self._lock.wait(IDLE)
            is_due = bool(self._renewals) or self.room - self.broker.left >= self.epoch or self.clients >= LAST_CLIENT
            while is_due and self.broker.step(OWN, ["pump"]).startswith("decided "):
                pass
            tail = self._tail()
            frames = [self.broker.frames(above, domain) for domain, above in enumerate(self.tail.numbers)]
            renewal = self._next_epoch(tail) if is_due else None
            made, self._made = self._made, []
        return Batch(made, frames, tail, renewal)

    def _next_epoch(self, tail: Tail) -> Renewal | None:
        """Begins the next epoch; with another script, if there is one that is not refused."""
        renewal = self._renewed(tail) if self._renewals else None
        if not renewal:
            self.broker.epoch(tail.numbers)
        self.era, self.bases, self.room, self.clients = [self.term, self.era[1] + 1], tuple(self.broker.numbers), self.broker.left, OWN
        return renewal

    def _renewed(self, tail: Tail) -> Renewal | None:
        """Goes on by the next one of the other scripts, unless it is refused."""
        made, script = self._renewals.pop(0)
        self._made.append(made)
        try:
            self.broker = self.broker.renew(script, tail.numbers)
        except (mdsal.Error, MemoryError) as why:
            made.answer["refused"] = f"{type(why).__name__}: {why}"
            return None
        self.script += 1
        made.answer["script"] = self.script
        return Renewal(script, [self.broker.snapshot(it) for it in range(self.broker.domains)], self._tail())

    def _end(self) -> None:
        """What was not appended is dropped, and who waits for it gets no answer."""
        with self._lock:
            self.is_over = True
            self.broker.close()
        for it in (*self._under_way.made, *self._made, *(made for made, _ in self._renewals)):
            it.done.set()
