"""Clients of the fault test: they write registers, read them at the leader and look at followers, and record all that they are told."""
from __future__ import annotations

import json
import random
import threading
import time
from typing import Any

from mdsal_cluster.client import Answer, Client, Ended, NoLeader, Unanswered, look_at

MOUNT = "/registers:registers"
REGISTERS = "/registers:registers"
REGISTER = REGISTERS + "/register[name='{}']"
NAMES = tuple(f"r{i}" for i in range(5))
Values = dict[str, tuple[int, str]]


class World:
    """What the clients of a domain share: whether to stop, how many writes were acknowledged, and the newest number that one was told."""

    def __init__(self, folder: str, domain: int = 0):
        self.folder, self.domain, self.stop, self.lock = folder, domain, threading.Event(), threading.Lock()
        self.lull = threading.Event()  # writers wait while it is set
        self.count, self.newest, self.begun = 0, 0, 0.0  # `begun` is when the last acknowledged write was sent
        self.broken: list[str] = []  # clients that ended by an error

    def acknowledged(self, number: int, sent: float) -> None:
        with self.lock:
            self.count, self.newest, self.begun = self.count + 1, max(self.newest, number), max(self.begun, sent)


def value_of(entry: dict[str, Any] | None) -> tuple[int, str]:
    return (entry["version"], entry["by"]) if entry else (0, "")


def values_of(container: dict[str, Any] | None) -> Values:
    """Returns the version of each register, and who made it, from the container with all of them."""
    found = {it["name"]: it for it in (container or {}).get("register", ())}
    return {name: value_of(found.get(name)) for name in NAMES}


class Recorder(threading.Thread):
    """A client with a history of its own."""

    def __init__(self, name: str, world: World, seed: int):
        super().__init__(daemon=True)
        self.client, self.world, self.random = name, world, random.Random(f"{name} {seed}")
        self.file = open(f"{world.folder}/{name}.jsonl", "w", encoding="utf-8")

    def record(self, sent: float, do: str, **what: Any) -> None:
        """Writes a line of the history; `told` is now, unless it is given."""
        line = {"client": self.client, "sent": sent, "told": time.monotonic(), "do": do, **what}
        self.file.write(json.dumps(line) + "\n")
        self.file.flush()

    def run(self) -> None:
        try:
            while not self.world.stop.is_set():
                self.once()
        except Exception as why:
            self.world.broken.append(f"client {self.client} ended: {type(why).__name__} {why}")
        self.file.close()

    def once(self) -> None:
        raise NotImplementedError


class Writer(Recorder):
    """Reads some registers in a transaction, and writes the next versions of some of them."""

    def __init__(self, name: str, world: World, seed: int, addresses: list[str]):
        super().__init__(name, world, seed)
        self.link, self.count = Client(addresses, 2.0), 0

    def once(self) -> None:
        if self.world.lull.is_set():
            return time.sleep(0.02)
        names = self.random.sample(NAMES, self.random.randrange(1, 4))
        try:
            values = self.begin(names)
            if self.random.random() < 0.9:
                self.write(values, names[: self.random.randrange(1, len(names) + 1)])
        except (Unanswered, Ended, NoLeader):
            time.sleep(0.02)

    def begin(self, names: list[str]) -> Values:
        """Begins a transaction: what it reads is a read of its own."""
        sent, domain = time.monotonic(), self.world.domain
        mount = [["mount", domain, MOUNT]] if domain else []
        it = self.link.steps([*mount, ["begin", 0, domain, "rw"], *(["read", 0, "config", REGISTER.format(name)] for name in names)])
        begun, *reads = it.replies[len(mount):]
        entries = [json.loads(text.removeprefix("data ")) if text.startswith("data ") else None for text in reads]
        values = {name: value_of(entry) for name, entry in zip(names, entries)}
        self.record(sent, "read", at=self.link.at, values=values, number=it.bases[domain] + int(begun.removeprefix("begun ")))
        return values

    def write(self, values: Values, names: list[str]) -> None:
        self.count += 1
        name = f"{self.client}-{self.count}"
        wrote = {it: values[it][0] + 1 for it in names}
        puts = [["put", 0, "config", REGISTER.format(it), {"name": it, "version": version, "by": name}] for it, version in wrote.items()]
        sent, what = time.monotonic(), {"id": name, "read": values, "wrote": wrote, "at": self.link.at}
        try:
            it = self.link.steps([*puts, ["submit", 0], ["settle", 0]], goes_on=True)
        except Unanswered:
            self.record(sent, "write", **what, told=None, answer=None, number=None)
            raise
        self.told(sent, it, what)

    def told(self, sent: float, it: Answer, what: dict[str, Any]) -> None:
        outcome, *words = it.replies[-1].split()
        number = it.bases[self.world.domain] + int(words[0]) if outcome == "done" else None
        if outcome not in ("done", "conflict"):
            raise RuntimeError(f"{what['id']}: {it.replies}")
        self.record(sent, "write", **what, answer=outcome, number=number)
        if number is not None:
            self.world.acknowledged(number, sent)


class Reader(Recorder):
    """Reads all registers at the leader."""

    def __init__(self, name: str, world: World, seed: int, addresses: list[str]):
        super().__init__(name, world, seed)
        self.link = Client(addresses, 6.0)

    def once(self) -> None:
        time.sleep(0.02)
        try:
            self.read()
        except NoLeader:
            pass

    def read(self, is_last: bool = False) -> tuple[Values, int]:
        sent = time.monotonic()
        found, number = self.link.look("config", REGISTERS, self.world.domain)
        values = values_of(found)
        self.record(sent, "read", at=self.link.at, values=values, number=number, is_last=is_last)
        return values, number


class Looker(Recorder):
    """Looks at any node: at a commit that may be old, but from a number on that some client was told, or from none."""

    def __init__(self, name: str, world: World, seed: int, addresses: list[str]):
        super().__init__(name, world, seed)
        self.addresses = addresses

    def once(self) -> None:
        time.sleep(0.02)
        at = self.random.choice(self.addresses)
        least = self.random.choice((0, self.world.newest))
        sent = time.monotonic()
        it = look_at(at, "config", REGISTERS, least, self.world.domain)
        if it:
            self.record(sent, "look", at=at, values=values_of(it[0]), number=it[1], min=least)
