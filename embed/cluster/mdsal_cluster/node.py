"""A node of the cluster: it follows the log, and leads when it has a term.

    python3 -m mdsal_cluster.node NAME HOST:PORT SCRIPT ENDPOINTS [--reader] [--lease S] [--seize] [--snapshot N] [--epoch N] [--prefix P]

ENDPOINTS are the URLs of the members of etcd, with commas. All nodes of a cluster have the same script. Requests are lines of JSON at the port:

    {"steps": [STEP, ..], "era": ERA}   the leader: makes the steps, and answers {"replies", "bases", "era", "number"} when all of them are durable
    {"look": [STORE, PATH, DOMAIN]}     the leader: {"value", "number"}, linearizable; domain 0 if none is named
    {"look": [..], "min": N}            any node: the same of a commit from N on, perhaps an old one; {"error": "behind", "number"} before
    {"renew": SCRIPT}                   the leader: the next epoch, by this script, on all nodes: {"script": COUNT} or {"refused": WHY}
    {"status": true}                    any node: {"name", "leads", "term", "number", "leader", "epochs", ..}

Else the answer is {"error": "not the leader", "leader": HOST:PORT}, {"error": "ended"}, {"error": "bad request"} or {"refused": WHY}: nothing was
made. A connection that is closed without an answer leaves it open whether the steps were made.
"""
from __future__ import annotations

import argparse
import random
import sys
import time
from typing import Any

import mdsal

from .election import Election, address_of
from .etcd import Etcd, Refused, Unknown
from .leader import Ended, Leader, NoAnswer, NotLeading, Session
from .log import Fenced, Log, OtherScript, Tail
from .port import Answerer, Port
from .replica import Replica

SILENCE = 5.0  # seconds after which a watch without news asks another member
PAUSE = 0.02  # seconds between two watches


def say(*words: Any) -> None:
    print(f"{time.time():.3f}", *words, file=sys.stderr, flush=True)


class Node:
    """A node. `logs` and `leaders` make its log and its leader: a test gives others, which are wrong."""

    def __init__(self, words: argparse.Namespace, logs: type[Log] = Log, leaders: type[Leader] = Leader):
        self.words, self.leaders = words, leaders
        with open(words.script, "rb") as file:
            self.script = file.read()
        endpoints = words.endpoints.split(",")
        self.log = logs(endpoints, self.script, words.prefix)
        self.replica = Replica(Log(endpoints, self.script, words.prefix))
        patience = max(0.3, words.lease / 3)
        me, how = {"name": words.name, "address": words.address}, {"may_lead": not words.reader, "seizes": words.seize}
        self.election = Election(Log(endpoints, self.script, words.prefix, patience), me, words.lease, how)
        self.watcher = Etcd(endpoints)
        self.election.won = self.watcher.wake
        self.leader: Leader | None = None
        self.since = 0.0
        self.snapshot_at = 0

    # ---- the port

    def connected(self) -> Answerer:
        session = Session()
        return lambda request: self.answer(session, request)

    def answer(self, session: Session, request: dict[str, Any]) -> dict[str, Any] | None:
        """Returns the answer to a request, or nothing: then the connection is closed."""
        try:
            if "status" in request:
                return self.status()
            leader = self.leader
            is_leaders = any(it in request for it in ("steps", "look", "renew"))
            if leader and is_leaders:
                return leader.make(session, request)
            if "look" in request and "min" in request:
                return self.look(request)
            if is_leaders:
                raise NotLeading
            return {"error": "bad request"}
        except NotLeading:
            return {"error": "not the leader", "leader": self.election.holder.address if self.election.holder else None}
        except Ended:
            return {"error": "ended"}
        except NoAnswer:
            return None
        except mdsal.Refused as why:
            return {"refused": str(why)}
        except (KeyError, TypeError, ValueError, mdsal.Error):
            return {"error": "bad request"}

    def look(self, request: dict[str, Any]) -> dict[str, Any]:
        """Looks in the replica: at a commit that may be an old one, whose number is told."""
        found = self.replica.look(*request["look"])
        if not found or found[1] < request["min"]:
            return {"error": "behind", "number": found[1] if found else None}
        return {"value": found[0], "number": found[1]}

    def status(self) -> dict[str, Any]:
        leader, holder = self.leader, self.election.holder
        number = leader.tail.numbers[0] if leader else self.replica.number
        it = {"name": self.words.name, "leads": bool(leader), "number": number, "loads": self.replica.loads, "since": self.since}
        return {**it, "term": holder.term if holder else None, "leader": holder.address if holder else None, "epochs": leader.era[1] if leader else 0}

    # ---- following

    def follow(self) -> None:
        """Follows the log until this node has a term."""
        while not self.election.term:
            try:
                if self.replica.standby or self.replica.load():
                    self._watch()
                time.sleep(PAUSE)
            except (Refused, mdsal.Error) as why:
                say("begins again with the snapshot:", why)
                self.replica.drop()
            except Unknown as why:
                say("etcd:", why)

    def _watch(self) -> None:
        keys = self.replica.log.entries_after(0)
        for events in self.watcher.watch(keys, self.replica.revision + 1, SILENCE, lambda: bool(self.election.term)):
            self.replica.take(events)
            self._keep_snapshot()

    def _keep_snapshot(self) -> None:
        """Writes a snapshot some time after the last one; the first follower to do so spares it the others."""
        index = self.replica.index or 0
        if index < self.snapshot_at:
            return
        newest, _ = self.replica.log.newest_snapshot()
        if index - newest >= self.words.snapshot:
            newest = index
            try:
                say(f"snapshot of {index}:", self.replica.log.keep_snapshot(*self.replica.snapshot()))
            except mdsal.BadExport as why:
                say("no snapshot:", why)
        self.snapshot_at = newest + self.words.snapshot + random.randrange(self.words.snapshot)

    # ---- leading

    def lead(self, term: int) -> None:
        """Leads in a term, until it ends: it raises `Fenced` then."""
        tail = self.replica.catch_up()
        if tail is None:
            broker = mdsal.Broker(self.script)
            opening = [broker.snapshot(it) for it in range(broker.domains)]
            if not self.log.begin(term, Tail(tuple(broker.numbers)), opening):
                raise Fenced("the log has begun")
        else:
            broker = self.replica.lead(tail)
        leader = self.leaders(self.log, term, broker, self.words.epoch, tail.script if tail else 0)
        say(f"{self.words.name} leads in term {term} after {leader.tail}")
        self.leader, self.since = leader, time.time()
        try:
            leader.run()
        finally:
            self.leader = None

    def run(self) -> None:
        port = Port(address_of(self.words.listen or self.words.address), self.connected)
        port.start()
        self.election.start()
        while True:
            self.follow()
            try:
                self.lead(self.election.term)
            except (Fenced, Refused, Unknown, RuntimeError, MemoryError, mdsal.Error) as why:
                say(f"{self.words.name} leads no more: {type(why).__name__} {why}")
            self.replica.drop()
            self.election.release()
            time.sleep(PAUSE)


def words_of(arguments: list[str]) -> argparse.Namespace:
    words = argparse.ArgumentParser(prog="mdsal_cluster.node", description="A node of the cluster.")
    words.add_argument("name")
    words.add_argument("address", help="HOST:PORT, by which clients and nodes reach it")
    words.add_argument("script", help="the file with the script, the same for all nodes")
    words.add_argument("endpoints", help="the URLs of the members of etcd, with commas")
    words.add_argument("--listen", help="HOST:PORT to listen at, if it is not the address")
    words.add_argument("--reader", action="store_true", help="it follows, and never leads")
    words.add_argument("--seize", action="store_true", help="take over at once when the leader's port closes, not when its lease ends")
    words.add_argument("--lease", type=int, default=2, help="seconds after which a silent leader is replaced")
    words.add_argument("--snapshot", type=int, default=10_000, help="commits from one snapshot to the next, at least")
    words.add_argument("--epoch", type=int, default=500_000, help="shared calls of an epoch")
    words.add_argument("--prefix", default="/mdsal/", help="of the keys in etcd")
    return words.parse_args(arguments)


if __name__ == "__main__":
    try:
        Node(words_of(sys.argv[1:])).run()
    except OtherScript as why:
        sys.exit(f"mdsal_cluster.node: {why}")
