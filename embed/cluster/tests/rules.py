"""The log's rules one after another, against three members of etcd: some seconds.

    rules.py FOLDER [KIND]      with a KIND of wrong.py its log is wrong: then it must find faults

It needs MDSAL_LIBRARY.
"""
from __future__ import annotations

import os
import sys
import threading
from collections.abc import Callable
from typing import Any

import mdsal
from checker import FOUND
from mdsal_cluster.etcd import Refused, Unknown, end_of, put
from mdsal_cluster.local import Members
from mdsal_cluster.log import PART, Fenced, Log, OtherScript, Tail, joined
from mdsal_cluster.replica import Replica
from wrong import LOGS

HERE = os.path.dirname(os.path.abspath(__file__))
ALONE = 2.5  # seconds that a member without the others gets for an answer
REGISTER = "/registers:registers/register[name='{}']"
with open(f"{HERE}/registers.json", "rb") as it:
    SCRIPT = it.read()


def fails(what: type[Exception], call: Callable[..., Any], *given: Any, words: str = "") -> bool:
    """Whether the call raises this exception, with these words."""
    try:
        call(*given)
    except what as why:
        return words in str(why)
    return False


def commit(broker: mdsal.Broker, by: str, times: int = 1) -> None:
    """Makes commits; each writes one version of the register x."""
    for _ in range(times):
        def one(it: mdsal.Transaction) -> None:
            old = it.read("config", REGISTER.format("x"))
            version = old["version"] + 1 if old else 1
            it.put("config", REGISTER.format("x"), {"name": "x", "version": version, "by": by})
        broker.update(one)


class Rules:
    """The rules, each as a method. They share the log `a` of the first leader and `b` of the second, and go on from each other."""

    def __init__(self, members: Members, logs: type[Log]):
        self.members, self.faults, self.is_wrong = members, 0, logs is not Log
        self.a, self.b = logs(members.endpoints, SCRIPT), logs(members.endpoints, SCRIPT)
        self.tail = Tail((0,))

    def check(self, what: str, holds: object) -> None:
        """Tells whether a rule holds. A log that is wrong on purpose ends with its first fault."""
        print(f"{'ok' if holds else 'FAULT'}: {what}", flush=True)
        self.faults += not holds
        if self.faults and self.is_wrong:
            raise SystemExit(FOUND)

    def campaign(self, log: Log, name: str, over: int = 0) -> int:
        self.lease = log.etcd.grant(60)
        return log.campaign({"name": name, "address": "127.0.0.1:1"}, self.lease, over)

    def append(self, log: Log, term: int, broker: mdsal.Broker) -> None:
        """Appends all commits after the tail."""
        tail = Tail(tuple(broker.numbers), broker.version)
        log.append(term, self.tail, tail, [broker.frames(self.tail.numbers[0])])
        self.tail = tail

    def first_term(self) -> None:
        self.first = self.campaign(self.a, "a")
        lease = self.lease
        self.check("one wins a term, another one does not", self.first and not self.campaign(self.b, "b"))
        self.lease = lease
        self.leader = mdsal.Broker(SCRIPT)
        opening = [self.leader.snapshot()]
        self.check("the log begins once", self.a.begin(self.first, self.tail, opening) and not self.a.begin(self.first, self.tail, opening))
        commit(self.leader, "a", 3)
        before, frames = self.tail, [self.leader.frames(0)]
        self.append(self.a, self.first, self.leader)
        again = not fails(Fenced, self.a.append, self.first, before, self.tail, frames)
        entry, _ = self.a.etcd.one(self.a.entry(3))
        self.check("an append whose answer was lost may be made again, and is there once", again and entry and entry.version == 1)
        self.check("an append after another tail is refused", fails(Fenced, self.a.append, self.first, Tail((2,)), Tail((4,)), [b"x"]))

    def second_term(self) -> None:
        commit(self.leader, "a")
        frames = [self.leader.frames(3)]
        self.a.etcd.revoke(self.lease)
        self.second = self.campaign(self.b, "b")
        self.check("who lost its lease answers no read", fails(Fenced, self.a.confirm, self.first))
        self.check("and appends nothing, also where the tail has not moved", fails(Fenced, self.a.append, self.first, self.tail, Tail((4,)), frames))
        replica = Replica(Log(self.members.endpoints, SCRIPT))
        tail = replica.catch_up()
        self.check("the next leader has what was acknowledged, and nothing else", tail == self.tail)
        broker = replica.lead(Tail((replica.number or 0,)))
        commit(broker, "b", 2)
        self.append(self.b, self.second, broker)
        self.check("and its commits follow", self.b.end()[0] == Tail((5,)))

    def seized(self) -> None:
        third = self.campaign(self.a, "a", self.second)
        self.check("a term may be taken over while it lasts", third and fails(Fenced, self.b.append, self.second, self.tail, Tail((6,)), [b"x"]))
        self.check("but not one that ended", not self.campaign(self.b, "b", self.second))
        self.third = third
        replica = Replica(Log(self.members.endpoints, SCRIPT))
        replica.catch_up()
        self.members.kill(0)
        self.leader = replica.lead(Tail((replica.number or 0,)))
        commit(self.leader, "a", 5)
        self.append(self.a, self.third, self.leader)
        self.check("two of three members suffice", self.a.end()[0] == Tail((10,)))
        self.members.start(0)
        self.members.wait()

    def long_frames(self) -> None:
        text = "long " * 120_000
        self.leader.update(lambda it: it.put("config", REGISTER.format("y"), {"name": "y", "version": 1, "by": text}))
        frames = self.leader.frames(self.tail.numbers[0])
        self.append(self.a, self.third, self.leader)
        self.late = Replica(Log(self.members.endpoints, SCRIPT))
        self.late.catch_up()
        found = self.late.look("config", REGISTER.format("y"))
        self.check(f"a frame longer than a request goes in parts: {len(frames)} bytes", len(frames) > 2 * PART and found and found[0]["by"] == text)
        self.check("and so does a snapshot", self.a.keep_snapshot(11, [self.leader.snapshot()]) and Replica(self.b).catch_up() == self.tail)
        self.check("an older snapshot does not count", not self.b.keep_snapshot(5, [b"x"]))

    def snapshots(self) -> None:
        commit(self.leader, "a", 2)
        self.append(self.a, self.third, self.leader)
        self.late.catch_up()
        same = self.late.snapshot() == (13, [self.leader.snapshot()])
        self.check("a follower's snapshot is the leader's, to the byte", same and self.b.keep_snapshot(*self.late.snapshot()))
        entries, _ = self.a.etcd.range(self.a.entry(0), end_of(self.a.prefix + "log/"))
        parts, _ = self.a.etcd.range(self.a.prefix + "part/", end_of(self.a.prefix + "part/"))
        self.check("entries up to the snapshot before are deleted, with their parts", [int(it.key[-16:]) for it in entries] == [13] and not parts)
        self.leader.epoch(13)
        commit(self.leader, "a")
        self.append(self.a, self.third, self.leader)
        loads = self.late.loads
        self.late.catch_up()
        self.check("a follower does not notice an epoch", self.late.number == 14 and self.late.loads == loads)
        very_late = Replica(Log(self.members.endpoints, SCRIPT))
        very_late.load()
        self.check("a late follower begins with the snapshot, and has the same trees", very_late.look("config", "/") == self.late.look("config", "/"))
        _, revision = self.a.end()
        self.a.etcd.again("/kv/compaction", {"revision": str(revision), "physical": True})
        watch = self.a.etcd.watch(self.a.entries_after(0), 1, 2.0)
        self.check("a watch from a compacted revision is refused, a load is not", fails(Refused, list, watch) and very_late.load())

    def versions(self) -> None:
        self.a.append(self.third, Tail((14,)), Tail((14,), 1), [])
        self.check("an upgrade without a commit moves the tail", self.b.end()[0] == Tail((14,), 1))
        self.check("and what expects the old version is refused", fails(Fenced, self.a.append, self.third, Tail((14,)), Tail((15,)), [b"x"]))

    def wrong_bytes(self) -> None:
        self.check("a node with another script is refused", fails(OtherScript, Replica(Log(self.members.endpoints, b"{}")).load))
        text = b'{"commit":16,"config":[],"operational":[]}'
        self.a.etcd.transaction([], [put(self.a.entry(16), joined([b"%08d\n%s\n" % (len(text), text)]))])
        replica = Replica(Log(self.members.endpoints, SCRIPT))
        self.check("a gap in the log is refused", fails(mdsal.BadStream, replica.load, words="gap 15 16"))

    def without_quorum(self) -> None:
        self.members.kill(1)
        self.members.kill(2)
        self.check("without a quorum nothing is written", fails(Unknown, self.b.etcd.transaction, [], [put("/x", "1")]))
        alone = type(self.a)(self.members.endpoints[:1], SCRIPT)
        asks = threading.Thread(target=alone.confirm, args=(self.third,), daemon=True)
        asks.start()
        asks.join(ALONE)
        self.check("and a member alone confirms no term", asks.is_alive())


def main() -> int:
    folder, kind = sys.argv[1], (sys.argv[2:] or [""])[0]
    members = Members(f"{folder}/etcd")
    try:
        rules = Rules(members, LOGS.get(kind, Log))
        for it in ("first_term", "second_term", "seized", "long_frames", "snapshots", "versions", "wrong_bytes", "without_quorum"):
            getattr(rules, it)()
    finally:
        members.stop()
    print("all rules hold" if not rules.faults else f"{rules.faults} faults", flush=True)
    return FOUND if rules.faults else 0


if __name__ == "__main__":
    sys.exit(main())
