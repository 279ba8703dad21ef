"""The log of frames in etcd: who leads, how the leader appends, what a follower reads.

Keys, below a prefix:

    leader            {"name", "address"}, with the lease of the leader. It is written once for each term, and its revision is the term.
    tail              "N0,N1,.. VERSION SCRIPT": the numbers of the last frames of all domains, the version of the schema after them, and which script
    by                the term of the last append: for an audit alone
    log/INDEX         the frames of one append, by domain; or "parts TERM COUNT", if they are longer than PART; or "script", where another one begins
    part/INDEX/TERM/I their parts then
    snap              {"index", "value", "scripts"} of the newest snapshot, a frame with all rows for each domain; and of the scripts so far, the last of
                      which it goes by: each {"at", "parts", "sha256"}
    snap/INDEX/AT/I   the parts of a snapshot; AT is a word of its own for each that was begun
    script/AT/I       the parts of a script

The commit index of a tail is the sum of its numbers and of its script's: each commit and each new script makes it greater by 1.

Safety rests on the two comparisons of each append (`fences`): `leader` has the revision of my term, and `tail` is what my frames follow. An older
term cannot append once a newer one was written, whatever it believes; leases and clocks only say when to try.
"""
from __future__ import annotations

import hashlib
import itertools
import json
import secrets
import time
from collections.abc import Iterator, Sequence
from dataclasses import dataclass
from typing import Callable, TypeVar

from .etcd import Answer, Etcd, Json, Pair, Refused, Unknown, delete, end_of, get, has_value, is_absent, put, was_modified_at

PART = 250_000  # bytes of a value: etcd refuses requests above 1.5 MB, and long ones delay all others
PAGE = 50  # entries of one read
PAUSE = 0.02  # seconds between tries without an answer
SCRIPT = b"script"  # the value of an entry where another script begins
Kept = TypeVar("Kept")


class Fenced(Exception):
    """Somebody else leads, or the log went on without me."""


class OtherScript(Exception):
    """The log is one of another script."""


@dataclass(frozen=True, slots=True)
class Holder:
    """Who leads, by its name and address, in which term."""

    name: str
    address: str
    term: int


@dataclass(frozen=True, slots=True, order=True)
class Tail:
    """The numbers of the last frames of all domains, domain 0 first, the version of the schema after them, and the number of the script. Each append makes
    one of them greater, and none less."""

    numbers: tuple[int, ...]
    version: int = 0
    script: int = 0

    @property
    def index(self) -> int:
        """The commit index."""
        return sum(self.numbers) + self.script

    def __str__(self) -> str:
        return f"{','.join(map(str, self.numbers))} {self.version} {self.script}"


@dataclass(frozen=True, slots=True)
class Start:
    """What a follower begins with: a snapshot of each domain, and the text and number of the script that it goes by, at a revision of etcd."""

    index: int
    frames: list[bytes]
    text: bytes
    script: int
    revision: int


def tail_of(pair: Pair) -> Tail:
    numbers, version, script = pair.value.decode().split()
    return Tail(tuple(map(int, numbers.split(","))), int(version), int(script))


def joined(frames: Sequence[bytes]) -> bytes:
    """Returns the frames of all domains as one value: a line of their lengths, and they."""
    return b" ".join(b"%d" % len(it) for it in frames) + b"\n" + b"".join(frames)


def split(value: bytes) -> list[bytes]:
    """Returns the frames of each domain."""
    head, _, rest = value.partition(b"\n")
    ends = list(itertools.accumulate(map(int, head.split())))
    return [rest[first:end] for first, end in zip([0, *ends], ends)]


def digest_of(data: bytes) -> str:
    return hashlib.sha256(data).hexdigest()


def snap_of(index: int, value: Json | None, scripts: Sequence[Json | None]) -> str:
    """Returns the name of a snapshot."""
    return json.dumps({"index": index, "value": value, "scripts": list(scripts)})


def index_of(pair: Pair) -> int:
    """Returns the commit index of an entry."""
    return int(pair.key.rsplit("/", 1)[1])


def parts_of(data: bytes) -> list[bytes]:
    return [data[at : at + PART] for at in range(0, len(data), PART)]


def until_answered(request: Callable[[], Kept]) -> Kept:
    """Repeats a request until it has an answer. It must be one that may be made twice."""
    while True:
        try:
            return request()
        except Unknown:
            time.sleep(PAUSE)


class Log:
    """The log below a prefix, by a connection of its own: for one thread. `script` is the one that a node was given."""

    def __init__(self, endpoints: Sequence[str], script: bytes, prefix: str = "/mdsal/", timeout: float = 1.0):
        self.etcd, self.prefix, self.script = Etcd(endpoints, timeout), prefix, script
        self.leader, self.tail, self.snap = prefix + "leader", prefix + "tail", prefix + "snap"

    def entry(self, index: int) -> str:
        return f"{self.prefix}log/{index:016d}"

    def entry_part(self, index: int, term: int, part: int) -> str:
        return f"{self.prefix}part/{index:016d}/{term:016d}/{part:04d}"

    def snap_folder(self, index: int) -> str:
        return f"{self.prefix}snap/{index:016d}/"

    def entries_after(self, index: int) -> tuple[str, str]:
        """Returns the range of the entries above a commit index."""
        return self.entry(index + 1), end_of(self.prefix + "log/")

    # ---- who leads

    def holder(self) -> tuple[Holder | None, int]:
        """Returns who leads, and the revision of etcd."""
        found, revision = self.etcd.one(self.leader)
        if not found:
            return None, revision
        it = json.loads(found.value)
        return Holder(it["name"], it["address"], found.modified), revision

    def campaign(self, me: Json, lease: str, over: int = 0) -> int:
        """Returns my new term, or 0. `over` is the term of a leader to be replaced; without it there must be none."""
        compare = was_modified_at(self.leader, over) if over else is_absent(self.leader)
        it = self.etcd.transaction([compare], [put(self.leader, json.dumps(me), lease)])
        return it.revision if it.held else 0

    # ---- the leader

    def fences(self, term: int, above: Tail) -> list[Json]:
        """What an append compares: my term, and the tail that it follows."""
        return [was_modified_at(self.leader, term), has_value(self.tail, str(above))]

    def begin(self, term: int, tail: Tail, frames: Sequence[bytes]) -> bool:
        """Begins the log with the opening of each domain, its frame 0. Returns whether there was none."""
        compare, opening = [was_modified_at(self.leader, term), is_absent(self.tail)], joined(frames)
        script = self._kept(self.prefix + "script/", self.script, compare)
        value = self._kept(self.snap_folder(tail.index), opening, compare) if script else None
        puts = [put(self.snap, snap_of(tail.index, value, [script])), put(self.tail, str(tail))]
        return bool(value) and until_answered(lambda: self.etcd.transaction(compare, puts)).held

    def append(self, term: int, above: Tail, tail: Tail, frames: Sequence[bytes]) -> None:
        """Appends the frames of each domain after `above` up to `tail`. It returns once they are durable, and raises `Fenced` if they never will be by
        me."""
        entry = [put(self.entry(tail.index), self._value(term, tail.index, joined(frames)))] if any(frames) else []
        self._move(term, above, tail, entry)

    def renew(self, term: int, above: Tail, script: bytes, frames: Sequence[bytes], tail: Tail) -> None:
        """Appends another script, by which the log goes on, with a snapshot of each domain by it. As `append`."""
        mine = [was_modified_at(self.leader, term)]
        text = self._kept(self.prefix + "script/", script, mine)
        value = self._kept(self.snap_folder(tail.index), joined(frames), mine) if text else None
        found, _ = self.etcd.one(self.snap)
        if not value or not found:
            raise Fenced(f"script {tail.script} in term {term}")
        scripts = json.loads(found.value)["scripts"][: tail.script]
        self._move(term, above, tail, [put(self.entry(tail.index), SCRIPT), put(self.snap, snap_of(tail.index, value, [*scripts, text]))])

    def _move(self, term: int, above: Tail, tail: Tail, puts: Sequence[Json]) -> None:
        """Moves the tail, with these puts, if both comparisons hold."""
        moves = [put(self.tail, str(tail)), put(self.prefix + "by", str(term)), *puts]
        reads = [get(self.leader), get(self.tail)]
        it = until_answered(lambda: self.etcd.transaction(self.fences(term, above), moves, reads))
        if not it.held and not self._was_made(it, term, tail):
            raise Fenced(f"append up to {tail} in term {term}")

    def confirm(self, term: int) -> None:
        """Returns if the term is still mine: what was read before this call may be answered. Else it raises `Fenced`. The transaction reads a key, so
        that it is linearizable: one that only compares is answered by a member from what it has, also where it is cut off from the others."""
        if not until_answered(lambda: self.etcd.transaction([was_modified_at(self.leader, term)], [get(self.leader)])).held:
            raise Fenced(f"a read in term {term}")

    @staticmethod
    def _was_made(it: Answer, term: int, tail: Tail) -> bool:
        """Whether an earlier try, without an answer, was made: the term is mine, and the tail is where I put it. Nobody else can have done that."""
        leader, found = it.read
        return bool(leader and leader.modified == term and found and tail_of(found) == tail)

    def _value(self, term: int, index: int, frames: bytes) -> bytes:
        """Returns the value of an entry. Long frames are written in parts first; they do not count before the entry names them."""
        if len(frames) <= PART:
            return frames
        if not self._write_parts(lambda i: self.entry_part(index, term, i), frames, [was_modified_at(self.leader, term)]):
            raise Fenced(f"parts of entry {index} in term {term}")
        return f"parts {term} {len(parts_of(frames))}".encode()

    def _kept(self, folder: str, value: bytes, compare: Sequence[Json]) -> Json | None:
        """Writes a long value below a folder, and returns where it is; nothing if a comparison did not hold."""
        at = folder + secrets.token_hex(8)
        is_written = self._write_parts(lambda i: f"{at}/{i:04d}", value, compare)
        return {"at": at, "parts": len(parts_of(value)), "sha256": digest_of(value)} if is_written else None

    def _write_parts(self, key: Callable[[int], str], data: bytes, compare: Sequence[Json]) -> bool:
        """Writes the parts of a long value. Returns whether the comparisons held each time."""
        return all(until_answered(lambda: self.etcd.transaction(compare, [put(key(i), part)])).held for i, part in enumerate(parts_of(data)))

    # ---- snapshots: by any node, since they say what the log says

    def newest_snapshot(self) -> tuple[int, int]:
        """Returns the commit index of the newest snapshot, and the revision that wrote its name."""
        found, _ = self.etcd.one(self.snap)
        return (json.loads(found.value)["index"], found.modified) if found else (0, 0)

    def keep_snapshot(self, index: int, frames: Sequence[bytes]) -> bool:
        """Writes a snapshot of each domain, and deletes what the one before it made needless. Returns whether it is the newest."""
        found, _ = self.etcd.one(self.snap)
        if not found or index <= json.loads(found.value)["index"]:
            return False
        older, scripts = json.loads(found.value)["index"], json.loads(found.value)["scripts"]
        compare = [was_modified_at(self.snap, found.modified)]
        value = self._kept(self.snap_folder(index), joined(frames), compare)
        if not value:
            return False
        gone = [
            delete(self.entry(0), self.entry(older + 1)),
            delete(self.prefix + "part/", f"{self.prefix}part/{older + 1:016d}"),
            delete(self.snap_folder(0), self.snap_folder(older)),
        ]
        try:
            return self.etcd.transaction(compare, [put(self.snap, snap_of(index, value, scripts)), *gone]).held
        except Unknown:
            return False

    # ---- a follower

    def start(self) -> Start | None:
        """Returns the newest snapshot, or nothing if there is no log. Raises `OtherScript` if this node was given none of the log's scripts."""
        while True:
            found, revision = self.etcd.one(self.snap)
            if not found:
                return None
            it = json.loads(found.value)
            if digest_of(self.script) not in [script["sha256"] for script in it["scripts"]]:
                raise OtherScript("the log below this prefix is one of another script")
            try:
                frames, text = split(self._value_at(it["value"], revision)), self._value_at(it["scripts"][-1], revision)
            except Refused:
                continue  # compacted meanwhile
            return Start(it["index"], frames, text, len(it["scripts"]) - 1, revision)

    def text_of(self, script: int) -> bytes:
        """Returns a script of the log."""
        found, revision = self.etcd.one(self.snap)
        assert found
        return self._value_at(json.loads(found.value)["scripts"][script], revision)

    def _value_at(self, it: Json, revision: int) -> bytes:
        """Returns a long value, from where it is."""
        value = b"".join(self._part(f"{it['at']}/{i:04d}", revision) for i in range(it["parts"]))
        if digest_of(value) != it["sha256"]:
            raise RuntimeError(f"{it['at']} is damaged")
        return value

    def entries(self, after: int, revision: int) -> Iterator[Pair]:
        """Yields the entries above a commit index, as they were at a revision."""
        key, end = self.entries_after(after)
        while True:
            found, _ = self.etcd.range(key, end, revision=str(revision), limit=str(PAGE))
            yield from found
            if len(found) < PAGE:
                return
            key = found[-1].key + "\0"

    def frames_of(self, pair: Pair) -> list[bytes]:
        """Returns the frames of an entry, by domain."""
        if not pair.value.startswith(b"parts "):
            return split(pair.value)
        _, term, count = pair.value.split()
        index = index_of(pair)
        return split(b"".join(self._part(self.entry_part(index, int(term), i), pair.modified) for i in range(int(count))))

    def end(self) -> tuple[Tail | None, int]:
        """Returns the tail, if there is a log, and the revision: a linearizable read."""
        found, revision = self.etcd.one(self.tail)
        return (tail_of(found) if found else None), revision

    def _part(self, key: str, revision: int) -> bytes:
        found, _ = self.etcd.one(key, revision=str(revision))
        if not found:
            raise RuntimeError(f"{key} is missing at revision {revision}")
        return found.value
