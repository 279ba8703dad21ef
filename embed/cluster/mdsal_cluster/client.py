"""A client of the cluster: it finds the leader, and says exactly what is known after a takeover.

    python3 -m mdsal_cluster.client ADDRESSES status | get PATH | put PATH JSON | delete PATH | renew FILE

ADDRESSES are HOST:PORT of some nodes, with commas. `get` is linearizable; `put` and `delete` are transactions in the configuration; `renew` begins the
next epoch by the script of a file, which has more upgrades or devices.
"""
from __future__ import annotations

import json
import sys
import time
from collections.abc import Callable, Sequence
from dataclasses import dataclass
from typing import Any, TypeVar

from mdsal import NotCommitted, Refused, errors
from mdsal.replies import Conflict, Data, Done, Outcome, Reply, reply_of

from .election import address_of
from .port import Link

Kept = TypeVar("Kept")
PAUSE = 0.02  # seconds between two looks for the leader


class NoLeader(Exception):
    """Nobody led for the time: nothing was made."""


class Unanswered(Exception):
    """No answer came: the steps were made, or not. Look whether their effect is there."""


class Ended(Exception):
    """The epoch or the term is over: nothing was made. Open transactions, listeners, providers and mounts of this client ended; begin again."""


@dataclass(frozen=True, slots=True)
class Answer:
    """Replies, as texts; all of them are durable. Commits of a domain in them count from its number in `bases`; `number` is that of the newest commit of
    domain 0 at the answer."""

    replies: list[str]
    bases: list[int]
    number: int

    @property
    def base(self) -> int:
        """The number from which commits of domain 0 count."""
        return self.bases[0]


def replies_of(texts: Sequence[str]) -> list[Reply]:
    """Returns the replies of texts. A step that was refused, or not made, raises its exception."""
    for text in texts:
        if text.startswith("error "):
            raise getattr(errors, text.removeprefix("error "), errors.Error)(text)
    return [reply_of(text) for text in texts]


class Client:
    """A connection to the leader, or to its successor. For one thread."""

    def __init__(self, addresses: Sequence[str], timeout: float = 5.0):
        self.addresses, self.timeout = list(addresses), timeout
        self.at = self.addresses[0]  # the node asked last
        self._link: Link | None = None
        self._era: list[int] | None = None

    def close(self) -> None:
        if self._link:
            self._link.close()
        self._link, self._era = None, None

    def steps(self, steps: Sequence[Any], goes_on: bool = False) -> Answer:
        """Makes steps in turn. With `goes_on` they need slots, listeners or mounts of earlier ones: if those are gone it raises `Ended`."""
        if goes_on and self._era is None:
            raise Ended
        era = {"era": self._era} if goes_on else {}
        it = self._led({"steps": list(steps), **era}, may_repeat=False, goes_on=goes_on)
        self._era = it["era"]
        return Answer(it["replies"], it["bases"], it["number"])

    def look(self, store: str, path: str, domain: int = 0) -> tuple[Any, int]:
        """Returns what is at the path (`None` is nothing), and the number of the domain's commit at which it is so: linearizable."""
        it = self._led({"look": [store, path, domain]}, may_repeat=True)
        return it["value"], it["number"]

    def renew(self, script: Any) -> int:
        """Begins the next epoch by another script, which has more upgrades behind those of the present one, or more devices behind its devices: on all
        nodes, with the trees of all domains. Returns how many scripts went before it. Raises `Refused` if it does not fit, `Unanswered` as `update`."""
        return self._led({"renew": script}, may_repeat=False)["script"]

    def update(self, function: Callable[[Transaction], Kept], domain: int = 0) -> Kept:
        """Calls the function with a transaction of the domain, and commits it; begins again after a conflict or a takeover. Raises `NotCommitted` if a
        rule refuses it, and `Unanswered` if the commit has no answer."""
        while True:
            try:
                transaction = Transaction(self, domain)
                kept = function(transaction)
                outcome = transaction.commit()
            except Ended:
                continue
            if isinstance(outcome, Done):
                return kept
            if not isinstance(outcome, Conflict):
                raise NotCommitted(outcome)

    def _led(self, request: dict[str, Any], may_repeat: bool, goes_on: bool = False) -> dict[str, Any]:
        """Returns the leader's answer. A request that was sent and has no answer is made again only if it may be repeated."""
        end = time.monotonic() + self.timeout
        while time.monotonic() < end:
            it = self._asked(request, may_repeat)
            if it is not None and "error" not in it:
                if "refused" in it:
                    raise Refused(it["refused"])
                return it
            if it is not None and it["error"] not in ("not the leader", "ended"):
                raise ValueError(it["error"])
            if it is not None and it["error"] == "not the leader":
                self._turn(it.get("leader"))
            if goes_on:
                self._era = None
                raise Ended
            time.sleep(PAUSE)
        raise NoLeader

    def _asked(self, request: dict[str, Any], may_repeat: bool) -> dict[str, Any] | None:
        """Returns the answer of the node, or nothing if the request was surely not made, or may be repeated."""
        try:
            if not self._link:
                self._link = Link(address_of(self.at), self.timeout)
        except OSError:
            self._turn(None)
            return None
        try:
            return self._link.ask(request)
        except (OSError, ValueError) as why:
            self._turn(None)
            if not may_repeat:
                raise Unanswered(str(why)) from None
            return None

    def _turn(self, leader: str | None) -> None:
        """The next request goes to the leader, if it is known and another node, else to the next node."""
        self.close()
        following = self.addresses[(self.addresses.index(self.at) + 1) % len(self.addresses)] if self.at in self.addresses else self.addresses[0]
        self.at = leader if leader and leader != self.at else following


class Transaction:
    """A transaction of `Client.update`, in slot 0: reads are answered by the leader, writes are kept until the commit."""

    def __init__(self, client: Client, domain: int = 0):
        self.client, self.writes = client, []
        self._steps([["begin", 0, domain, "rw"]], goes_on=False)

    def _steps(self, steps: list[Any], goes_on: bool = True) -> list[Reply]:
        """Without an answer nothing counts: a transaction that was not submitted ends with its leader."""
        try:
            return replies_of(self.client.steps(steps, goes_on).replies)
        except Unanswered:
            raise Ended from None

    def read(self, store: str, path: str) -> Any:
        """Returns what is at the path, or `None` if there is nothing, under the writes so far."""
        *_, it = self._steps([*self._pending(), ["read", 0, store, path]])
        assert isinstance(it, Data)
        return it.value

    def put(self, store: str, path: str, value: Any) -> None:
        self.writes.append(["put", 0, store, path, value])

    def merge(self, store: str, path: str, value: Any) -> None:
        self.writes.append(["merge", 0, store, path, value])

    def delete(self, store: str, path: str) -> None:
        self.writes.append(["delete", 0, store, path])

    def _pending(self) -> list[Any]:
        writes, self.writes = self.writes, []
        return writes

    def commit(self) -> Outcome:
        """Submits it, and returns the outcome once it is durable. A write that is refused raises its refusal, and commits nothing."""
        self._steps(self._pending())
        *_, it = replies_of(self.client.steps([["submit", 0], ["settle", 0]], goes_on=True).replies)
        assert isinstance(it, Outcome)
        return it


def asked(address: str, request: dict[str, Any], timeout: float = 2.0) -> dict[str, Any] | None:
    """Returns the answer of one node to one request, or nothing."""
    try:
        link = Link(address_of(address), timeout)
        try:
            return link.ask(request)
        finally:
            link.close()
    except (OSError, ValueError):
        return None


def look_at(address: str, store: str, path: str, least: int = 0, domain: int = 0) -> tuple[Any, int] | None:
    """Returns what is at the path in the trees of one node, and the number of their domain's commit: at least this one, but perhaps an old one. Or
    nothing, if the node is behind or gone."""
    it = asked(address, {"look": [store, path, domain], "min": least})
    return (it["value"], it["number"]) if it and "value" in it else None


def main(words: list[str]) -> int:
    addresses, command, *rest = words
    if command == "status":
        for address in addresses.split(","):
            print(address, json.dumps(asked(address, {"status": True})))
        return 0
    client = Client(addresses.split(","), 15.0)
    if command == "get":
        print(json.dumps(client.look("config", rest[0])[0]))
    elif command == "put":
        client.update(lambda it: it.put("config", rest[0], json.loads(rest[1])))
    elif command == "delete":
        client.update(lambda it: it.delete("config", rest[0]))
    elif command == "renew":
        with open(rest[0], encoding="utf-8") as file:
            print(client.renew(file.read()))
    return 0


if __name__ == "__main__":
    if len(sys.argv) < 3:
        sys.exit(__doc__)
    try:
        sys.exit(main(sys.argv[1:]))
    except (errors.Error, NoLeader, Unanswered, ValueError) as it:
        sys.exit(f"{type(it).__name__}: {it}")
