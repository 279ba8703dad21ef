"""Follows the log from its first frame on, without a snapshot, and checks that nobody wrote what the rules forbid."""
from __future__ import annotations

import threading
import time

import mdsal
from mdsal_cluster.etcd import Etcd, Event, Pair, Refused, end_of
from mdsal_cluster.log import SCRIPT, Log, Tail, tail_of
from mdsal_cluster.replica import feed


class Auditor(threading.Thread):
    """Sees each key of the log as it is written."""

    def __init__(self, log: Log, script: bytes):
        super().__init__(daemon=True)
        self.log, self.watcher = log, Etcd(log.etcd.endpoints)
        self.standby = mdsal.StandBy(script, 0)
        self.faults: list[str] = []
        self.terms: list[tuple[int, str]] = []
        self.tail = Tail((0,))
        self.script, self.revision, self.appends, self.bytes, self.snapshots = 0, 0, 0, 0, 0
        self.stop = False

    def run(self) -> None:
        prefix = self.log.prefix
        while not self.stop:
            try:
                for events in self.watcher.watch((prefix, end_of(prefix)), self.revision + 1, 2.0):
                    for it in events:
                        self.saw(it)
            except (Refused, mdsal.Error) as why:
                self.faults.append(f"the auditor, after {self.standby.number}: {type(why).__name__} {why}")
                return
            time.sleep(0.02)

    def saw(self, event: Event) -> None:
        self.revision = max(self.revision, event.pair.modified)
        if not event.is_put:
            return
        name = event.pair.key.removeprefix(self.log.prefix)
        if name == "leader":
            self.terms.append((event.pair.modified, event.pair.value.decode()))
        elif name == "by":
            self.saw_term(event.pair)
        elif name == "tail":
            self.saw_tail(event.pair)
        elif name == "snap":
            self.saw_snapshot()
        elif name.startswith("log/"):
            self.saw_entry(event.pair, int(name.removeprefix("log/")))

    def saw_term(self, pair: Pair) -> None:
        if int(pair.value) != self.terms[-1][0]:
            self.faults.append(f"two leaders: term {pair.value.decode()} appended at revision {pair.modified}, in term {self.terms[-1][0]}")

    def saw_tail(self, pair: Pair) -> None:
        tail = tail_of(pair)
        if pair.version > 1 and not tail > self.tail:
            self.faults.append(f"the tail went from {self.tail} to {tail}")
        self.tail = tail

    def saw_snapshot(self) -> None:
        """The first one is the opening, frame 0 of each domain."""
        self.snapshots += 1
        if self.snapshots == 1:
            start = self.log.start()
            assert start
            feed(self.standby, start.frames)

    def saw_entry(self, pair: Pair, index: int) -> None:
        if pair.version != 1:
            self.faults.append(f"entry {index} was written {pair.version} times")
        if pair.value == SCRIPT:
            self.saw_script()
        else:
            frames = self.log.frames_of(pair)
            self.appends, self.bytes = self.appends + 1, self.bytes + sum(map(len, frames))
            feed(self.standby, frames)
        if sum(self.standby.numbers) + self.script != index:
            self.faults.append(f"entry {index} leads to {self.standby.numbers} by script {self.script}")

    def saw_script(self) -> None:
        """Goes on by the next script, from its own trees; a domain that is new begins with its opening, frame 0."""
        self.script += 1
        numbers = self.standby.numbers
        standby = mdsal.StandBy(self.log.text_of(self.script), numbers)
        for domain in range(len(numbers)):
            standby.feed(self.standby.snapshot(domain), domain)
        start = self.log.start()
        assert start
        for domain in range(len(numbers), standby.domains):
            standby.feed(start.frames[domain], domain)
        self.standby = standby
