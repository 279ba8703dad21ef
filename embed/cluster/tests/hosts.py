"""The fault test on three hosts: network namespaces of this machine, each with an address of its own, a member of etcd and a node.

    hosts.py FOLDER ROUNDS [--seed N] [--only FAULT,..] [--seize]      as root, with `ip` of iproute2; it needs MDSAL_LIBRARY

The hosts hang on a bridge in a fourth namespace, where the clients are. To cut a host off, its line is taken down: its member and its node reach
each other and nobody else, and packets are lost without a word. Or it has no route to the other hosts, and they have none to it: then clients still
reach it. Faults, checker and audit are those of faults.py, with these faults of the network. It says so and ends with 0 where no namespace can be made.
"""
from __future__ import annotations

import subprocess
import sys
import time
from collections.abc import Callable

from faults import Faults, Test, words_of
from mdsal_cluster.local import NAMES, Place
from wires import Wires

NET = "mdsal-net"
HOSTS = [f"mdsal-host{i}" for i in range(len(NAMES))]
INSIDE = "--inside"
FIRST_PORT = 7000
LULL = 0.5  # seconds in which a leader appends all that is under way
PREFIX = "10.77.0."  # of addresses: the first host has 1


def ip(*words: str) -> None:
    subprocess.run(["ip", *words], check=True)


def line(i: int, state: str) -> None:
    """Takes the line of a host up or down."""
    ip("-n", NET, "link", "set", f"line{i}", state)


def route(i: int, k: int, what: str) -> None:
    """Adds or deletes the lack of a route from one host to another."""
    ip("-n", HOSTS[i], "route", what, "blackhole", f"{PREFIX}{k + 1}")


def can_be_made() -> bool:
    """Whether this user can make network namespaces here."""
    try:
        ip("netns", "add", NET)
        ip("netns", "delete", NET)
    except (OSError, subprocess.CalledProcessError):
        return False
    return True


class Network:
    """The namespaces, while they are needed."""

    def __enter__(self) -> None:
        self.__exit__()
        ip("netns", "add", NET)
        ip("-n", NET, "link", "add", "bridge", "type", "bridge")
        ip("-n", NET, "address", "add", f"{PREFIX}254/24", "dev", "bridge")
        for it in ("lo", "bridge"):
            ip("-n", NET, "link", "set", it, "up")
        for i, host in enumerate(HOSTS):
            ip("netns", "add", host)
            ip("-n", NET, "link", "add", f"line{i}", "type", "veth", "peer", "name", "line", "netns", host)
            ip("-n", NET, "link", "set", f"line{i}", "master", "bridge")
            ip("-n", host, "address", "add", f"{PREFIX}{i + 1}/24", "dev", "line")
            for it in ("lo", "line"):
                ip("-n", host, "link", "set", it, "up")
            line(i, "up")

    def __exit__(self, *why: object) -> None:
        found = subprocess.run(["ip", "netns", "list"], capture_output=True, text=True, check=True).stdout.split()
        for it in {NET, *HOSTS} & set(found):
            ip("netns", "delete", it)


class Hosts(Place):
    """One process of each kind on each host."""

    def __init__(self) -> None:
        self.port = FIRST_PORT

    def addresses(self, count: int) -> list[str]:
        ports = range(self.port + 1, self.port + 1 + count // len(HOSTS))
        self.port += len(ports)
        return [f"{PREFIX}{i + 1}:{port}" for port in ports for i in range(len(HOSTS))]

    def words(self, i: int) -> list[str]:
        return ["ip", "netns", "exec", HOSTS[i]]


class HostFaults(Faults):
    """Faults of hosts and of their lines."""

    def wired(self) -> dict[str, Wires]:
        return {}

    def kinds(self) -> dict[str, Callable[[], float | None]]:
        lines = {"host": self.host, "other": self.other, "apart": self.apart, "flapping": self.flapping, "side": self.side}
        return {"kill": self.kill, "both": self.both, "renew": self.renew, **lines}

    def cut_off(self, i: int) -> float | None:
        """Cuts a host off until a write is acknowledged, and some time longer."""
        since = time.monotonic()
        line(i, "down")
        took = self.recovered(since)
        time.sleep(self.random.uniform(0.0, 2.0))
        line(i, "up")
        return took

    def host(self) -> float | None:
        """The leader's host is cut off, from clients and hosts: it goes on, and may acknowledge nothing."""
        return self.cut_off(NAMES.index(self.leader()))

    def side(self) -> float | None:
        """The leader's host is cut off, without a write under way, and then only from the other hosts: clients find the old leader again, which has
        nothing to append, and may answer no read."""
        i = NAMES.index(self.leader())
        pairs = [pair for k in range(len(HOSTS)) if k != i for pair in ((i, k), (k, i))]
        for it in self.worlds:
            it.lull.set()
        time.sleep(LULL)
        since = time.monotonic()
        line(i, "down")
        for it in self.worlds:
            it.lull.clear()
        for pair in pairs:
            route(*pair, "add")
        took = self.recovered(since)
        line(i, "up")
        time.sleep(self.random.uniform(1.0, 2.0))
        for pair in pairs:
            route(*pair, "delete")
        return took

    def other(self) -> float | None:
        """Another host is cut off."""
        leader = self.leader()
        return self.cut_off(NAMES.index(self.random.choice([it for it in NAMES if it != leader])))

    def apart(self) -> float | None:
        """All hosts are cut off from each other: nothing may be acknowledged until they are back."""
        for i in range(len(HOSTS)):
            line(i, "down")
        time.sleep(0.2)
        since = time.monotonic()
        time.sleep(self.random.uniform(0.5, 3.0))
        if self.world.begun > since:
            self.found.append("a write was acknowledged while all hosts were apart")
        for i in range(len(HOSTS)):
            line(i, "up")
        return self.recovered(time.monotonic())

    def flapping(self) -> float | None:
        """The line of the leader's host goes down and up again, several times, each time for a part of its lease."""
        i, since = NAMES.index(self.leader()), time.monotonic()
        for _ in range(5):
            line(i, "down")
            time.sleep(self.random.uniform(0.1, 0.7))
            line(i, "up")
            time.sleep(self.random.uniform(0.1, 0.7))
        return self.recovered(since)


def main(words: list[str]) -> int:
    if INSIDE in words:
        words.remove(INSIDE)
        return Test(words_of(words), Hosts(), HostFaults).run()
    if not can_be_made():
        print("the test on three hosts: skipped: this user makes no network namespaces, or there is no ip (Debian: apt-get install iproute2)")
        return 0
    with Network():
        return subprocess.call(["ip", "netns", "exec", NET, sys.executable, "-B", __file__, *words, INSIDE])


if __name__ == "__main__":
    sys.exit(main(sys.argv[1:]))
