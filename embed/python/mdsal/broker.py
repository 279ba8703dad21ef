"""A broker in this process."""
from __future__ import annotations

import contextlib
import ctypes
import enum
import threading
from typing import Any, Callable, Iterable, Iterator, Sequence, TypeVar

from .errors import BadClient, Error
from .library import Handle, Session, bytes_of, number, numbers
from .replies import Batch, Conflict, Data, Done, Notes, Outcome, Reply, Request, Truth, reply_of

CLIENTS = 65536
Kept = TypeVar("Kept")


class NotCommitted(Error):
    """A transaction of `update` was decided, but is no commit and no conflict. `outcome` says why."""

    def __init__(self, outcome: Outcome):
        super().__init__(str(outcome))
        self.outcome = outcome


class Waiting(enum.IntFlag):
    """What waits for a client: each flag is set if and only if the step would give something now."""

    REQUEST = 1
    """`next-call` would give a request."""
    NOTES = 2
    """`take-notes` would give a notification."""
    ANSWER = 4
    """`collect` would give the answer to the request in the slot."""
    DECIDED = 8
    """The submission whose receipt is in the slot is decided: `settle` would give its outcome, and decide nothing."""
    CHANGES = 16
    """The batch of `take` would go beyond the one before: the domain of the listener in the slot has commits, which may have no change at its path."""


class Broker(Session):
    """A broker over the opening trees of a script without clients and order. `library` is the path of libmdsal.so; the default is the value
    of MDSAL_LIBRARY, or else libmdsal.so in the folder of this module, or else the one that the system finds."""

    def __init__(self, script: Any, library: str | None = None):
        super().__init__(library)
        text = bytes_of(script)
        self._call("open", "open", text, len(text))

    def __enter__(self) -> Broker:
        return self

    def step(self, client: int, step: Any) -> str:
        """Makes the client's next step, and returns the text of its reply."""
        if not 0 <= client < CLIENTS:
            raise BadClient(f"client {client}")
        text = bytes_of(step)
        return self._call(f"client {client}: {text.decode(errors='replace')}", "step", client, text, len(text)).decode()

    def steps(self, client: int, steps: Iterable[Any]) -> list[str]:
        """Makes the steps of a client in turn, and returns the texts of their replies. A step that is not made ends it by its exception, whose `replies`
        are those before it."""
        told: list[str] = []
        for it in steps:
            try:
                told.append(self.step(client, it))
            except Error as why:
                why.replies = told
                raise
        return told

    def call(self, client: int, step: Any) -> Reply:
        """Makes the client's next step, and returns its reply with its fields. A refused step raises an exception of `mdsal.refusals`."""
        return reply_of(self.step(client, step))

    def frames(self, above: int, domain: int = 0) -> bytes:
        """Returns the frames of the domain's commits with numbers above this one, in order. Domain 0 is the controller's own."""
        return self._call(f"frames of domain {domain} above {above}", "frames_of", number(domain, 32), number(above, 64))

    def epoch(self, newest: int | Sequence[int]) -> None:
        """Begins the next epoch, if nothing is pending and the newest commit has this number: then the caller has its frame. The trees stay; the log,
        the report, and what clients had end, mounts too. With devices `newest` has the numbers of all domains; of one without a number nothing is
        asked."""
        self._call(f"epoch at {newest}", "epoch_of", *numbers(newest))

    def renew(self, script: Any, newest: int | Sequence[int]) -> Broker:
        """Begins the next epoch, as `epoch`, with another script: it may have more upgrades behind those of this one, and more devices behind its
        devices. Returns the broker, with the newest trees of each domain and its numbers; this object is closed then. Else it stays, at the begin of
        its next epoch if the new script's broker is refused."""
        with self._lock:
            domains, version = self.domains, self.version
            with StandBy(script, self.numbers, self._library._name) as standby:
                self.epoch(newest)
                for domain in range(domains):
                    standby.feed(self.snapshot(domain), domain)
                broker = standby.lead(version)
            self.close()
        return broker

    @property
    def version(self) -> int:
        """The present version of the schema, as the script counts: keep it beside the frames, for `StandBy.lead`."""
        return self._number("version")

    @property
    def left(self) -> int:
        """How many shared calls the log has room for."""
        return self._number("left")

    def waits(self, client: int, slot: int = 0) -> Waiting:
        """Returns what waits for the client; `slot` is the number of its slots that hold the listener, the receipt and the request. It is no step, and adds
        nothing to the log."""
        return Waiting(self._number("waits", number(client, 32), number(slot, 8)))

    def changes(self, client: int, slot: int = 0) -> Iterator[Batch]:
        """Takes the batches of the listener in the slot while commits wait that it has not seen. It ends when none waits, and may then be called again; a
        poll in vain adds nothing to the log. A batch has no part if its commits have no change at the listener's path."""
        while Waiting.CHANGES in self.waits(client, slot):
            it = self.call(client, ["take", slot])
            assert isinstance(it, Batch)
            yield it

    def requests(self, client: int, slot: int = 0) -> Iterator[Request]:
        """Takes the requests to the client into the slot while one waits: answer each by `answer` before the next one."""
        while Waiting.REQUEST in self.waits(client, slot):
            it = self.call(client, ["next-call", slot])
            assert isinstance(it, Request)
            yield it

    def notifications(self, client: int) -> Iterator[tuple[str, Any]]:
        """Takes the notifications to the client while some wait, each as its name and its data."""
        while Waiting.NOTES in self.waits(client):
            it = self.call(client, ["take-notes"])
            assert isinstance(it, Notes)
            yield from it.notes

    def report(self) -> str:
        """Returns the report of all steps so far, as `mdsal sim` writes it."""
        return self._call("report", "report").decode()

    def update(self, function: Callable[[Transaction], Kept], client: int = 0, slot: int = 0, domain: int = 0) -> Kept:
        """Calls the function with a transaction and commits it; after a conflict it begins again. It uses this slot of the client, which no other thread
        may use meanwhile. Returns what the function returned. If the transaction is refused by a rule it raises `NotCommitted`; if the function raises,
        the transaction is cancelled."""
        while True:
            transaction = Transaction(self, client, slot, domain)
            try:
                kept = function(transaction)
            except BaseException:
                with contextlib.suppress(Error):
                    transaction.cancel()
                raise
            outcome = transaction.commit()
            if isinstance(outcome, Done):
                return kept
            if not isinstance(outcome, Conflict):
                raise NotCommitted(outcome)


class StandBy(Session):
    """A stand-by of the broker of a script. Its stream begins with the frame of the number `first`, which has all rows: a snapshot. With devices `first`
    may have a number for each of the first domains; the streams of others begin with 0."""

    def __init__(self, script: Any, first: int | Sequence[int] = 0, library: str | None = None):
        super().__init__(library)
        text = bytes_of(script)
        self._call("follow", "follow_of", text, len(text), *numbers(first))

    def __enter__(self) -> StandBy:
        return self

    def feed(self, piece: bytes, domain: int = 0) -> None:
        """Takes the next bytes of the domain's stream, cut anywhere."""
        self._call(f"feed of domain {domain}", "feed_of", number(domain, 32), piece, len(piece))

    def lead(self, version: int = 0) -> Broker:
        """Returns the broker that it becomes, by this version of the schema; this object is closed then. Else it stays as it is. A device without a frame
        begins as in the script; each is mounted anew."""
        with self._lock:
            self._call(f"lead by version {version}", "lead", number(version, 32))
            broker = Broker.__new__(Broker)
            broker._library, broker._lock, broker._room = self._library, threading.RLock(), self._room
            broker._handle, self._handle, self._room = self._handle, Handle(), ctypes.create_string_buffer(4096)
        return broker


class Transaction:
    """An open transaction in a slot of a client. Stores are "config" and "operational"."""

    def __init__(self, broker: Broker, client: int = 0, slot: int = 0, domain: int = 0, mode: str = "rw"):
        self.broker, self.client, self.slot = broker, client, slot
        broker.call(client, ["begin", slot, domain, mode])

    def _call(self, word: str, *words: Any) -> Reply:
        return self.broker.call(self.client, [word, self.slot, *words])

    def read(self, store: str, path: str) -> Any:
        """Returns what is at the path, or `None` if there is nothing."""
        it = self._call("read", store, path)
        assert isinstance(it, Data)
        return it.value

    def exists(self, store: str, path: str) -> bool:
        it = self._call("exists", store, path)
        assert isinstance(it, Truth)
        return it.value

    def put(self, store: str, path: str, value: Any) -> None:
        self._call("put", store, path, value)

    def merge(self, store: str, path: str, value: Any) -> None:
        self._call("merge", store, path, value)

    def delete(self, store: str, path: str) -> None:
        self._call("delete", store, path)

    def cancel(self) -> None:
        self._call("cancel")

    def commit(self) -> Outcome:
        """Submits the transaction, and returns what became of it."""
        self._call("submit")
        it = self._call("settle")
        assert isinstance(it, Outcome)
        return it
