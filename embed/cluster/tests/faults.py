"""The fault test: three members of etcd, three nodes, clients that record what they are told, and faults, one each round.

    faults.py FOLDER ROUNDS [--seed N] [--wrong KIND] [--only FAULT,..] [--seize]

After the rounds, with all that failed back: each node reaches the tail and has the same trees, the audit of the log has no fault, and the checker, a
process of its own, finds one order for all that clients were told. With a KIND of wrong.py the nodes are wrong, and the test ends with the first
round whose history has no order. The histories stay in FOLDER/history. One of the nodes cuts into short parts. It needs MDSAL_LIBRARY.
"""
from __future__ import annotations

import argparse
import collections
import json
import os
import random
import shutil
import signal
import subprocess
import sys
import threading
import time
from collections.abc import Callable

from auditor import Auditor
from checker import FOUND, SHOWN
from mdsal_cluster.client import NoLeader, asked, look_at
from mdsal_cluster.local import Members, Nodes, Place, until
from mdsal_cluster.log import Log
from wires import Wires
from workload import Looker, Reader, Recorder, World, Writer

HERE = os.path.dirname(os.path.abspath(__file__))
SCRIPT = f"{HERE}/devices.json"
WRONG = [sys.executable, "-B", f"{HERE}/wrong.py"]
CHECKER = [sys.executable, "-B", f"{HERE}/checker.py"]
DOMAINS = (0, 1)  # the controller's own, and a device
WRITERS, DEVICE_WRITERS = 5, 2
FOUND_IT = "the checker found it"


class Faults:
    """The faults, each as a method: it makes the fault, waits for the next acknowledged write, and mends it."""

    def __init__(self, members: Members, nodes: Nodes, worlds: list[World], seed: int):
        self.members, self.nodes, self.worlds, self.random = members, nodes, worlds, random.Random(seed)
        self.world = worlds[0]
        self.took: dict[str, list[float | None]] = collections.defaultdict(list)
        self.found: list[str] = []
        self.epochs: dict[int, int] = {}  # of each term, as its leader said before a fault
        self.wires = self.wired()
        self.devices = 1
        with open(SCRIPT, "rb") as file:
            self.script = file.read()

    def wired(self) -> dict[str, Wires]:
        """Puts wires between nodes and members, which `cut` cuts."""
        wires = {name: Wires(self.members.endpoints) for name in self.nodes.addresses}
        self.nodes.endpoints = {name: it.endpoints for name, it in wires.items()}
        return wires

    def kinds(self) -> dict[str, Callable[[], float | None]]:
        return {
            "kill": self.kill, "pause": self.pause, "member": self.member, "stuck": self.stuck, "both": self.both, "follower": self.follower,
            "quorum": self.quorum, "blackout": self.blackout, "cut": self.cut, "renew": self.renew,
        }

    def recovered(self, since: float) -> float | None:
        """Returns the seconds until a write that was sent after the fault is acknowledged."""
        return time.monotonic() - since if until(lambda: self.world.begun > since) else None

    def leader(self) -> str:
        name = until(self.nodes.leader)
        if not name:
            raise RuntimeError("nobody leads")
        return name

    def kill(self) -> float | None:
        """The leader is killed."""
        name, since = self.leader(), time.monotonic()
        self.nodes.kill(name)
        took = self.recovered(since)
        self.nodes.start(name)
        return took

    def renew(self) -> float | None:
        """Another script begins, with a device more, and the leader is killed at about that time."""
        name, since = self.leader(), time.monotonic()
        self.devices += 1
        script = json.loads(self.script)
        request = {"renew": {**script, "devices": self.devices * script["devices"]}}
        threading.Thread(target=asked, args=(self.nodes.addresses[name], request), daemon=True).start()
        time.sleep(self.random.uniform(0.0, 0.5))
        self.nodes.kill(name)
        took = self.recovered(since)
        self.nodes.start(name)
        return took

    def pause(self) -> float | None:
        """The leader is stopped, longer than its lease, and then goes on as if nothing had been."""
        name, since = self.leader(), time.monotonic()
        self.nodes.signal(name, signal.SIGSTOP)
        took = self.recovered(since)
        time.sleep(self.random.uniform(0.0, 1.0))
        self.nodes.signal(name, signal.SIGCONT)
        return took

    def cut(self) -> float | None:
        """The leader is cut off from etcd, but not from its clients; what it sent meanwhile arrives late."""
        name, since = self.leader(), time.monotonic()
        self.wires[name].cut()
        until(lambda: any(self.nodes.status(it).get("leads") for it in self.nodes.addresses if it != name))
        took = self.recovered(since)
        time.sleep(self.random.uniform(0.0, 1.0))
        self.wires[name].mend()
        return took

    def member(self) -> float | None:
        """A member of etcd is killed."""
        i, since = self.random.randrange(3), time.monotonic()
        self.members.kill(i)
        took = self.recovered(since)
        time.sleep(self.random.uniform(0.0, 0.5))
        self.members.start(i)
        return took

    def stuck(self) -> float | None:
        """A member of etcd is stopped: its connections stay, and are silent."""
        i, since = self.random.randrange(3), time.monotonic()
        self.members.signal(i, signal.SIGSTOP)
        took = self.recovered(since)
        time.sleep(self.random.uniform(0.0, 1.5))
        self.members.signal(i, signal.SIGCONT)
        return took

    def both(self) -> float | None:
        """The leader and a member of etcd are killed."""
        name, i, since = self.leader(), self.random.randrange(3), time.monotonic()
        self.members.kill(i)
        self.nodes.kill(name)
        took = self.recovered(since)
        self.nodes.start(name)
        self.members.start(i)
        return took

    def follower(self) -> float | None:
        """A follower is killed."""
        leader, since = self.leader(), time.monotonic()
        name = self.random.choice([it for it in self.nodes.addresses if it != leader])
        self.nodes.kill(name)
        took = self.recovered(since)
        self.nodes.start(name)
        return took

    def quorum(self) -> float | None:
        """Two of three members are killed: nothing may be acknowledged until one is back."""
        return self.without_quorum(None)

    def blackout(self) -> float | None:
        """Two of three members are killed, and then the leader."""
        return self.without_quorum(self.leader())

    def without_quorum(self, leader: str | None) -> float | None:
        i = self.random.randrange(3)
        gone = (i, (i + 1) % 3)
        for it in gone:
            self.members.kill(it)
        time.sleep(0.2)
        since = time.monotonic()
        time.sleep(self.random.uniform(0.2, 2.0))
        if leader:
            self.nodes.kill(leader)
        if self.world.begun > since:
            self.found.append("a write was acknowledged without a quorum")
        for it in gone:
            self.members.start(it)
        if leader:
            self.nodes.start(leader)
        return self.recovered(time.monotonic())

    def round(self, kind: str) -> bool:
        """Makes a fault of the kind. Returns whether all came back."""
        time.sleep(self.random.uniform(0.3, 1.2))
        status = self.nodes.status(self.leader())
        self.epochs[status.get("term", 0)] = status.get("epochs", 0)
        took = self.kinds()[kind]()
        self.took[kind].append(took)
        self.members.wait()
        back = until(lambda: all(self.nodes.status(it).get("number") is not None for it in self.nodes.addresses))
        told = "never" if took is None else f"{took:.2f} s"
        print(f"{kind}: {told}, {self.world.count} acknowledged{'' if back else ', a node is not back'}", flush=True)
        return bool(back) and took is not None


class Test:
    """A run of the test, in its folder."""

    def __init__(self, words: argparse.Namespace, place: Place = Place(), faults: type[Faults] = Faults):
        self.words, self.folder, self.history = words, words.folder, f"{words.folder}/history"
        for it in (self.history, f"{self.folder}/nodes"):
            shutil.rmtree(it, ignore_errors=True)
        for domain in DOMAINS:
            os.makedirs(f"{self.history}/{domain}")
        with open(SCRIPT, "rb") as file:
            self.script = file.read()
        self.members = Members(f"{self.folder}/etcd", place=place)
        self.nodes = Nodes(f"{self.folder}/nodes", SCRIPT, self.members.endpoints, place)
        self.nodes.more = ["--lease", "1", "--epoch", "60", "--snapshot", "100", *(["--seize"] if words.seize else [])]
        self.nodes.programs["c"] = [*WRONG, "parts"]
        if words.wrong:
            self.nodes.programs = {name: [*WRONG, words.wrong] for name in self.nodes.addresses}
        self.worlds, self.faults = [World(f"{self.history}/{domain}", domain) for domain in DOMAINS], faults
        self.auditor = Auditor(Log(self.members.endpoints, self.script), self.script)
        self.crowd: list[Recorder] = []
        self.crowds = 0

    def start_crowd(self) -> None:
        """Starts the clients of both domains, under new names each time."""
        self.crowds += 1
        self.crowd = [it for world in self.worlds for it in self.crowd_of(world)]
        for world in self.worlds:
            world.stop.clear()
        for it in self.crowd:
            it.start()

    def crowd_of(self, world: World) -> list[Recorder]:
        addresses, seed, mark = list(self.nodes.addresses.values()), self.words.seed, "" if self.crowds == 1 else f".{self.crowds}"
        writers = [Writer(f"w{i}{mark}", world, seed, addresses) for i in range(DEVICE_WRITERS if world.domain else WRITERS)]
        readers = [Reader(f"r{i}{mark}", world, seed, addresses[i:]) for i in range(1 if world.domain else 2)]
        return [*writers, *readers, Looker(f"l{mark}", world, seed, addresses)]

    def stop_crowd(self) -> None:
        """Waits until each client has its last answer: only then its history is whole."""
        for world in self.worlds:
            world.stop.set()
        for it in self.crowd:
            it.join()

    def run(self) -> int:
        """Runs the rounds, and returns the exit status."""
        try:
            self.auditor.start()
            faults = self.faults(self.members, self.nodes, self.worlds, self.words.seed)
            self.nodes.start()
            faults.leader()
            self.start_crowd()
            start, problems = time.monotonic(), self.rounds(faults)
            self.stop_crowd()
            problems += faults.found + (self.ending() if not problems else [])
            self.tell(faults, time.monotonic() - start)
        finally:
            self.auditor.stop = True
            self.nodes.stop()
            self.members.stop()
        problems += self.auditor.faults + [why for it in self.worlds for why in it.broken]
        for it in problems[:SHOWN]:
            print("FAULT:", it)
        is_bad = self.checked(quiet=False) or problems
        print("the fault test: faults were found" if is_bad else "the fault test: all is well", flush=True)
        return FOUND if is_bad else 0

    def rounds(self, faults: Faults) -> list[str]:
        """Makes the faults. Returns what did not come back. Wrong nodes are done with as soon as they are found."""
        kinds = self.words.only.split(",") if self.words.only else list(faults.kinds())
        for number in range(self.words.rounds):
            if number % len(kinds) == 0:
                faults.random.shuffle(kinds)
            print(f"{number}: ", end="")
            is_back = faults.round(kinds[number % len(kinds)])
            if self.words.wrong:
                self.stop_crowd()
                if self.checked(quiet=True) == FOUND:
                    return [f"{FOUND_IT} in round {number}"]
                self.start_crowd()
            if not is_back:
                return [f"round {number}: not all came back"]
        return []

    def checked(self, quiet: bool) -> int:
        """Runs the checker over the history of each domain, and returns its exit status for the first that has a fault. No transaction is of two domains,
        so there is an order for both if there is one for each."""
        out = subprocess.DEVNULL if quiet else None
        return next((it for it in [subprocess.call([*CHECKER, world.folder], stdout=out) for world in self.worlds] if it), 0)

    def ending(self) -> list[str]:
        """The last reads, and the trees of all nodes and of the auditor at their numbers. Returns what is wrong."""
        addresses = list(self.nodes.addresses.values())
        try:
            numbers = [Reader("last", it, self.words.seed, addresses).read(is_last=True)[1] for it in self.worlds]
        except NoLeader:
            return ["nobody answers the last read"]
        trees = until(lambda: self.trees(numbers), 20.0)
        if not trees:
            nodes = [self.nodes.status(it).get("number") for it in self.nodes.addresses]
            return [f"not all replicas reach {numbers}: the nodes {nodes}, the auditor {self.auditor.standby.numbers}"]
        return [] if all(it == trees[0] for it in trees) else [f"the trees after {numbers} differ"]

    def trees(self, numbers: list[int]) -> list[object] | None:
        """Returns both trees of both domains of each node and of the auditor, once they have these numbers."""
        if self.auditor.standby.numbers[: len(numbers)] != numbers:
            return None
        which = [(store, domain) for domain in DOMAINS for store in ("config", "operational")]
        looks = [[look_at(it, store, "/", numbers[domain], domain) for store, domain in which] for it in self.nodes.addresses.values()]
        own = [(self.auditor.standby.look(store, "/", domain), numbers[domain]) for store, domain in which]
        return [*looks, own] if all(it for pairs in looks for it in pairs) else None

    def tell(self, faults: Faults, seconds: float) -> None:
        auditor = self.auditor
        print(f"{seconds:.0f} s, {' and '.join(str(it.count) for it in self.worlds)} acknowledged, {len(auditor.terms)} terms, {auditor.appends} appends of {auditor.bytes} bytes, "
              f"{auditor.snapshots} snapshots, {auditor.script} more scripts, at least {sum(faults.epochs.values())} epochs")
        for kind, took in faults.took.items():
            good = sorted(it for it in took if it is not None)
            if good:
                print(f"{kind}: {len(took)} times, {good[0]:.2f} to {good[-1]:.2f} s, middle {good[len(good) // 2]:.2f}")


def words_of(arguments: list[str]) -> argparse.Namespace:
    words = argparse.ArgumentParser()
    words.add_argument("folder")
    words.add_argument("rounds", type=int)
    words.add_argument("--seed", type=int, default=1)
    words.add_argument("--wrong")
    words.add_argument("--only")
    words.add_argument("--seize", action="store_true")
    return words.parse_args(arguments)


if __name__ == "__main__":
    sys.exit(Test(words_of(sys.argv[1:])).run())
