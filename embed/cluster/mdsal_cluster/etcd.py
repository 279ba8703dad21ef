"""A client of etcd v3 by its JSON gateway, over `http.client` alone: ranges, transactions, leases, watches. One object serves one thread."""
from __future__ import annotations

import base64
import http.client
import json
import random
import socket
import time
from collections.abc import Callable, Iterator, Sequence
from dataclasses import dataclass
from typing import Any
from urllib.parse import urlsplit

Json = dict[str, Any]
TRIES = 100
SLOWEST = 100_000  # bytes a second: a long request has so much more time than the timeout


class Unknown(Exception):
    """No answer came: the request was made, or it was not."""


class Refused(Exception):
    """etcd refused the request: it was not made. Also for a revision that was compacted."""


@dataclass(frozen=True, slots=True)
class Pair:
    """A key with its value. `modified` is the revision that wrote it, `version` how often it was written since it was created."""

    key: str
    value: bytes
    modified: int
    version: int


@dataclass(frozen=True, slots=True)
class Event:
    """A key was written, or deleted, as a watch tells."""

    is_put: bool
    pair: Pair


def encoded(text: str | bytes) -> str:
    return base64.b64encode(text.encode() if isinstance(text, str) else text).decode()


def decoded(text: str | None) -> bytes:
    return base64.b64decode(text or "")


def pair_of(it: Json) -> Pair:
    return Pair(decoded(it["key"]).decode(), decoded(it.get("value")), int(it.get("mod_revision", 0)), int(it.get("version", 0)))


def end_of(prefix: str) -> str:
    """Returns the end of the range of all keys with this prefix."""
    return prefix[:-1] + chr(ord(prefix[-1]) + 1)


# ---- parts of a transaction: what it does, and what it compares


def put(key: str, value: str | bytes, lease: str | None = None) -> Json:
    return {"request_put": {"key": encoded(key), "value": encoded(value), **({"lease": lease} if lease else {})}}


def get(key: str) -> Json:
    return {"request_range": {"key": encoded(key)}}


def delete(key: str, end: str) -> Json:
    return {"request_delete_range": {"key": encoded(key), "range_end": encoded(end)}}


def is_absent(key: str) -> Json:
    return {"key": encoded(key), "target": "VERSION", "result": "EQUAL", "version": "0"}


def was_modified_at(key: str, revision: int) -> Json:
    return {"key": encoded(key), "target": "MOD", "result": "EQUAL", "mod_revision": str(revision)}


def has_value(key: str, value: str) -> Json:
    return {"key": encoded(key), "target": "VALUE", "result": "EQUAL", "value": encoded(value)}


@dataclass(frozen=True, slots=True)
class Answer:
    """The answer to a transaction: whether its comparisons held, at which revision, and what it read."""

    held: bool
    revision: int
    read: list[Pair | None]


def answer_of(it: Json) -> Answer:
    read: list[Pair | None] = []
    for response in it.get("responses", ()):
        if "response_range" in response:
            found = response["response_range"].get("kvs", ())
            read.append(pair_of(found[0]) if found else None)
    return Answer(bool(it.get("succeeded")), int(it["header"]["revision"]), read)


class Etcd:
    """A connection to one of the members; after a failure to the next one."""

    def __init__(self, endpoints: Sequence[str], timeout: float = 1.0):
        self.endpoints, self.timeout = list(endpoints), timeout
        self._at = random.randrange(len(self.endpoints))
        self._link: http.client.HTTPConnection | None = None
        self._watched: socket.socket | None = None

    def close(self) -> None:
        if self._link:
            self._link.close()
        self._link = None

    def _turn(self) -> None:
        self.close()
        self._at = (self._at + 1) % len(self.endpoints)

    def _connection(self, timeout: float) -> http.client.HTTPConnection:
        return http.client.HTTPConnection(urlsplit(self.endpoints[self._at]).netloc, timeout=timeout)

    def once(self, path: str, body: Json) -> Json:
        """Makes the request at one member. Raises `Unknown` if no answer came, `Refused` if it was not made."""
        data = json.dumps(body).encode()
        try:
            self._link = self._link or self._connection(self.timeout)
            if not self._link.sock:
                self._link.connect()
            self._link.sock.settimeout(self.timeout + len(data) / SLOWEST)
            self._link.request("POST", "/v3" + path, data, {"Content-Type": "application/json"})
            answer = self._link.getresponse()
            text = answer.read()
        except (OSError, http.client.HTTPException) as why:
            self._turn()
            raise Unknown(str(why)) from None
        if answer.status == 200:
            return json.loads(text)
        if answer.status in (400, 404):
            raise Refused(text.decode(errors="replace"))
        self._turn()
        raise Unknown(text.decode(errors="replace"))

    def again(self, path: str, body: Json) -> Json:
        """The same for a request that may be repeated: it tries each member, and then waits between tries."""
        for number in range(TRIES):
            try:
                return self.once(path, body)
            except Unknown as why:
                last = why
                time.sleep(0.1 if number >= len(self.endpoints) else 0)
        raise last

    def transaction(self, compare: Sequence[Json], then: Sequence[Json], otherwise: Sequence[Json] = ()) -> Answer:
        """Makes `then` if all comparisons hold, else `otherwise`."""
        return answer_of(self.once("/kv/txn", {"compare": list(compare), "success": list(then), "failure": list(otherwise)}))

    def range(self, key: str, end: str | None = None, **more: Any) -> tuple[list[Pair], int]:
        """Returns the pairs from a key on up to the end, and the revision at which they were read. Linearizable, unless `revision` names one."""
        it = self.again("/kv/range", {"key": encoded(key), **({"range_end": encoded(end)} if end else {}), **more})
        return [pair_of(pair) for pair in it.get("kvs", ())], int(it["header"]["revision"])

    def one(self, key: str, **more: Any) -> tuple[Pair | None, int]:
        """Returns the pair of one key, if there is one, and the revision."""
        found, revision = self.range(key, **more)
        return (found[0] if found else None), revision

    def grant(self, seconds: int) -> str:
        """Returns a new lease."""
        return self.again("/lease/grant", {"TTL": str(seconds)})["ID"]

    def keep_alive(self, lease: str) -> int:
        """Returns the seconds that the lease has again, 0 if it ended."""
        it = self.once("/lease/keepalive", {"ID": lease})
        return int(it.get("result", it).get("TTL", 0))

    def revoke(self, lease: str) -> None:
        self.once("/lease/revoke", {"ID": lease})

    def wake(self) -> None:
        """Ends a watch of another thread."""
        try:
            if self._watched:
                self._watched.shutdown(socket.SHUT_RDWR)
        except OSError:
            pass

    def watch(self, keys: tuple[str, str], revision: int, timeout: float, ended: Callable[[], bool] = lambda: False) -> Iterator[list[Event]]:
        """Yields what happens to the keys from the revision on; first an empty list. It ends if the member goes, if nothing came for the time, or
        if `wake` was called after `ended` became true. Raises `Refused` if the revision was compacted. The next watch asks the next member."""
        link = self._connection(timeout)
        create = {"key": encoded(keys[0]), "range_end": encoded(keys[1]), "start_revision": str(revision)}
        try:
            link.connect()
            self._watched = link.sock
            link.request("POST", "/v3/watch", json.dumps({"create_request": create}).encode())
            answer = link.getresponse()
            while not ended():
                line = answer.readline()
                it = json.loads(line).get("result") if line else None
                if it is None:
                    return
                if it.get("canceled"):
                    raise Refused(f"watch: compacted at {it.get('compact_revision')}")
                yield [Event(event.get("type", "PUT") == "PUT", pair_of(event["kv"])) for event in it.get("events", ())]
        except (OSError, http.client.HTTPException, ValueError):
            return
        finally:
            self._watched = None
            link.close()
            self._at = (self._at + 1) % len(self.endpoints)
