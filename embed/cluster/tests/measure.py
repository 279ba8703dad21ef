"""Figures for docs/COSTS.md: commits a second, lag, takeover, a late follower.

    measure.py FOLDER        it needs MDSAL_LIBRARY
"""
from __future__ import annotations

import json
import os
import subprocess
import sys
import threading
import time

import mdsal
from mdsal_cluster.client import Client
from mdsal_cluster.etcd import Etcd
from mdsal_cluster.local import Members, Nodes, until
from mdsal_cluster.log import Log, Tail
from mdsal_cluster.replica import Replica

HERE = os.path.dirname(os.path.abspath(__file__))
SCRIPT = f"{HERE}/registers.json"
with open(SCRIPT, "rb") as it:
    TEXT = it.read()
REGISTER = "/registers:registers/register[name='{}']"
SECONDS = 8
TAKEOVERS = 6


def steps_of(name: str, version: int) -> list[list]:
    """The steps of a commit that writes a register of its own: no conflict, and a tree of constant size."""
    put = ["put", 0, "config", REGISTER.format(name), {"name": name, "version": version, "by": name}]
    return [["begin", 0, 0, "rw"], put, ["submit", 0], ["settle", 0]]


def commit(broker: mdsal.Broker, client: int, version: int) -> None:
    if not broker.steps(client, steps_of(f"n{client}", version))[-1].startswith("done "):
        raise RuntimeError("a commit is not made")


def middle(times: list[float]) -> float:
    return sorted(times)[len(times) // 2]


class Watching(threading.Thread):
    """A follower that notes when it has each number."""

    def __init__(self, log: Log):
        super().__init__(daemon=True)
        endpoints, self.at = log.etcd.endpoints, {}
        self.replica, self.watcher = Replica(Log(endpoints, TEXT, log.prefix)), Etcd(endpoints)
        self.replica.load()

    def run(self) -> None:
        while True:
            for events in self.watcher.watch(self.replica.log.entries_after(0), self.replica.revision + 1, 60.0):
                self.replica.take(events)
                self.at[self.replica.number] = time.monotonic()


def appends(log: Log, term: int, broker: mdsal.Broker, each: int) -> None:
    """Commits an append, `each` of them, as the leader makes them, with a follower beside it."""
    follower = Watching(log)
    follower.start()
    tail, durable, start, version = Tail((broker.number,)), {}, time.monotonic(), 0
    while time.monotonic() - start < SECONDS:
        version += 1
        for client in range(each):
            commit(broker, client, version)
        following = Tail((broker.number,))
        log.append(term, tail, following, [broker.frames(tail.numbers[0])])
        tail, durable[following.index] = following, time.monotonic()
    seconds, count = time.monotonic() - start, version * each
    until(lambda: follower.replica.index == tail.index, 10.0)
    lags = [1000 * (follower.at[number] - at) for number, at in durable.items() if number in follower.at]
    print(f"{each} commits an append: {count / seconds:.0f} a second, {1000 * seconds / version:.1f} ms an append; a follower has it "
          f"{middle(lags):.1f} ms after the leader, at most {max(lags):.1f}", flush=True)
    broker.epoch(broker.number)


def clients(addresses: str, first: int, count: int) -> None:
    """A process of clients: prints how many commits each had acknowledged, and the times of all."""
    times: list[float] = []

    def one(name: str) -> None:
        client, version, end = Client(addresses.split(","), 10.0), 0, time.monotonic() + SECONDS
        while time.monotonic() < end:
            version, begun = version + 1, time.monotonic()
            client.steps(steps_of(name, version))
            times.append(time.monotonic() - begun)

    threads = [threading.Thread(target=one, args=(f"n{first + i}",)) for i in range(count)]
    for it in threads:
        it.start()
    for it in threads:
        it.join()
    print(json.dumps(times))


def over_tcp(nodes: Nodes, count: int) -> None:
    """Clients over TCP, in up to four processes."""
    processes = min(4, count)
    words = [sys.executable, "-B", __file__, "clients", ",".join(nodes.addresses.values())]
    runs = [subprocess.Popen([*words, str(1000 * i), str(count // processes)], stdout=subprocess.PIPE) for i in range(processes)]
    times = [t for it in runs for t in json.loads(it.communicate()[0])]
    print(f"{count} clients over TCP: {len(times) / SECONDS:.0f} commits a second, {1000 * middle(times):.1f} ms each", flush=True)


def takeovers(nodes: Nodes, what: str) -> None:
    """Kills the leader again and again; the time until the next commit is acknowledged."""
    times, client = [], Client(list(nodes.addresses.values()), 30.0)
    for number in range(TAKEOVERS):
        name = until(nodes.leader)
        client.look("config", "/")
        time.sleep(1.0)
        start = time.monotonic()
        nodes.kill(name)
        client.update(lambda it: it.put("config", REGISTER.format("t"), {"name": "t", "version": number, "by": "t"}))
        times.append(time.monotonic() - start)
        nodes.start(name)
        until(lambda: nodes.status(name).get("number") is not None)
    print(f"takeover {what}: {min(times):.2f} to {max(times):.2f} s", flush=True)


def late_follower(log: Log, entries: int) -> None:
    """A tree of many entries: a snapshot, its parts, a late follower, the next epoch, a lead."""
    term = log.campaign({"name": "m", "address": "127.0.0.1:1"}, log.etcd.grant(600))
    broker = mdsal.Broker(TEXT)
    log.begin(term, Tail((0,)), [broker.snapshot()])
    for at in range(0, entries, 100):
        puts = [["put", 0, "config", REGISTER.format(f"e{i}"), {"name": f"e{i}", "version": i, "by": "m"}] for i in range(at, at + 100)]
        broker.steps(0, [["begin", 0, 0, "rw"], *puts, ["submit", 0], ["settle", 0]])
    tail = Tail((broker.number,))
    log.append(term, Tail((0,)), tail, [broker.frames(0)])
    marks = [time.monotonic()]
    frames = broker.snapshot()
    marks.append(time.monotonic())
    log.keep_snapshot(broker.number, [frames])
    marks.append(time.monotonic())
    replica = Replica(log)
    replica.load()
    marks.append(time.monotonic())
    broker.epoch(broker.number)
    marks.append(time.monotonic())
    replica.lead(tail)
    marks.append(time.monotonic())
    made, written, loaded, epoch, lead = (second - first for first, second in zip(marks, marks[1:]))
    print(f"{entries} entries: a snapshot of {len(frames)} bytes made in {made:.2f} s, written in {written:.2f} s, loaded by a late follower in "
          f"{loaded:.2f} s; the next epoch in {epoch:.2f} s; a stand-by leads in {lead:.2f} s", flush=True)


def main(folder: str) -> None:
    print(f"load average {os.getloadavg()[0]:.1f}")
    members = Members(f"{folder}/etcd")
    nodes = Nodes(f"{folder}/nodes", SCRIPT, members.endpoints)
    try:
        log = Log(members.endpoints, TEXT, "/appends/")
        term = log.campaign({"name": "m", "address": "127.0.0.1:1"}, log.etcd.grant(600))
        broker = mdsal.Broker(TEXT)
        log.begin(term, Tail((0,)), [broker.snapshot()])
        for each in (1, 8, 64):
            appends(log, term, broker, each)
        nodes.start()
        until(nodes.leader)
        for count in (1, 8, 64):
            over_tcp(nodes, count)
        takeovers(nodes, "by a lease of 1 s")
        nodes.stop()
        nodes.more += ["--seize"]
        nodes.start()
        takeovers(nodes, "by the leader's port")
        nodes.stop()
        late_follower(Log(members.endpoints, TEXT, "/large/", 10.0), 100_000)
    finally:
        nodes.stop()
        members.stop()
    print(f"load average {os.getloadavg()[0]:.1f}")


if __name__ == "__main__":
    if sys.argv[1] == "clients":
        clients(sys.argv[2], int(sys.argv[3]), int(sys.argv[4]))
    else:
        main(sys.argv[1])
