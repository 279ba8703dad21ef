"""Members of etcd, and nodes, on this machine: for a first look, and for the tests.

    python3 -m mdsal_cluster.local FOLDER SCRIPT      three members and three nodes, until an empty line; it needs MDSAL_LIBRARY

They are child processes on loopback, with their data in the folder, and are ended by their process ids.
"""
from __future__ import annotations

import ctypes
import os
import shutil
import signal
import socket
import subprocess
import sys
import time
import urllib.request
from collections.abc import Callable, Sequence
from typing import Any

from .client import asked

# Heartbeats and elections, in ms: the shortest lease of etcd is 1.5 elections, so 1 s here.
TIMES = ("--heartbeat-interval", "50", "--election-timeout", "500")
COMPACTION = ("--auto-compaction-mode", "revision", "--auto-compaction-retention", "2000")
LIBC, DEATH_SIGNAL = ctypes.CDLL(None), 1  # prctl(PR_SET_PDEATHSIG)
NODE = [sys.executable, "-B", "-m", "mdsal_cluster.node"]
NAMES = "abc"  # of the nodes


def free_ports(count: int) -> list[int]:
    """Returns ports of loopback that nobody uses now."""
    sockets = [socket.socket() for _ in range(count)]
    try:
        for it in sockets:
            it.bind(("127.0.0.1", 0))
        return [it.getsockname()[1] for it in sockets]
    finally:
        for it in sockets:
            it.close()


def until(what: Callable[[], Any], seconds: float = 60.0) -> Any:
    """Returns the first answer that counts as true, or nothing after the time."""
    end = time.monotonic() + seconds
    while time.monotonic() < end:
        it = what()
        if it:
            return it
        time.sleep(0.02)
    return None


def started(words: Sequence[str], log: str) -> subprocess.Popen[bytes]:
    """Starts a child that writes to the file. The system ends it if this process is killed."""
    def die_with_parent() -> None:
        LIBC.prctl(DEATH_SIGNAL, signal.SIGKILL)

    with open(log, "ab") as file:
        return subprocess.Popen(words, stdin=subprocess.DEVNULL, stdout=file, stderr=file, preexec_fn=die_with_parent)


def end(process: subprocess.Popen[bytes]) -> None:
    """Ends a child, also one that was stopped."""
    process.kill()
    process.wait()


class Place:
    """Where members and nodes run: here, on loopback. A test has others."""

    def addresses(self, count: int) -> list[str]:
        """Returns addresses HOST:PORT at which so many processes may listen, the process of each place in turn."""
        return [f"127.0.0.1:{it}" for it in free_ports(count)]

    def words(self, i: int) -> list[str]:
        """Returns the words before the command of the process of this place."""
        return []


class Members:
    """Members of etcd, each with its data in a folder of its own."""

    def __init__(self, folder: str, count: int = 3, place: Place = Place()):
        self.folder, self.place, self.running = folder, place, {}
        addresses = [f"http://{it}" for it in place.addresses(2 * count)]
        self.endpoints, self.peers = addresses[:count], addresses[count:]
        shutil.rmtree(folder, ignore_errors=True)
        os.makedirs(folder)
        for i in range(count):
            self.start(i)
        self.wait()

    def start(self, i: int) -> None:
        client, peer = self.endpoints[i], self.peers[i]
        cluster = ",".join(f"m{k}={it}" for k, it in enumerate(self.peers))
        words = [*self.place.words(i), "etcd", "--name", f"m{i}", "--data-dir", f"{self.folder}/m{i}", "--logger", "zap", "--log-level", "error", *TIMES, *COMPACTION]
        words += ["--listen-client-urls", client, "--advertise-client-urls", client]
        words += ["--listen-peer-urls", peer, "--initial-advertise-peer-urls", peer]
        words += ["--initial-cluster", cluster, "--initial-cluster-state", "new", "--initial-cluster-token", os.path.basename(self.folder)]
        self.running[i] = started(words, f"{self.folder}/m{i}.log")

    def kill(self, i: int) -> None:
        end(self.running.pop(i))

    def signal(self, i: int, what: signal.Signals) -> None:
        self.running[i].send_signal(what)

    def is_healthy(self, i: int) -> bool:
        try:
            with urllib.request.urlopen(f"{self.endpoints[i]}/health", timeout=2) as it:
                return b'"true"' in it.read()
        except OSError:
            return False

    def wait(self, seconds: float = 120.0) -> None:
        """Waits until all members that run are healthy."""
        if not until(lambda: all(self.is_healthy(i) for i in self.running), seconds):
            raise RuntimeError(f"etcd does not get healthy: see {self.folder}")

    def stop(self) -> None:
        for i in list(self.running):
            self.kill(i)


class Nodes:
    """Nodes over the members. `programs` has the command of each node without its words, and `endpoints` those of etcd; `more` are further words."""

    def __init__(self, folder: str, script: str, endpoints: Sequence[str], place: Place = Place()):
        self.folder, self.script, self.endpoints, self.place = folder, script, {name: endpoints for name in NAMES}, place
        self.addresses = dict(zip(NAMES, place.addresses(len(NAMES))))
        self.programs, self.more = {name: NODE for name in NAMES}, ["--lease", "1"]
        self.running: dict[str, subprocess.Popen[bytes]] = {}
        os.makedirs(folder, exist_ok=True)

    def start(self, *names: str) -> None:
        for name in names or self.addresses:
            words = [*self.place.words(NAMES.index(name)), *self.programs[name], name, self.addresses[name], self.script, ",".join(self.endpoints[name]), *self.more]
            self.running[name] = started(words, f"{self.folder}/{name}.log")

    def kill(self, name: str) -> None:
        end(self.running.pop(name))

    def signal(self, name: str, what: signal.Signals) -> None:
        self.running[name].send_signal(what)

    def status(self, name: str) -> dict[str, Any]:
        """Returns the status of a node, empty if it does not answer."""
        return asked(self.addresses[name], {"status": True}, 0.7) or {}

    def leader(self) -> str | None:
        """Returns who leads, as the nodes say it themselves."""
        return next((name for name in self.running if self.status(name).get("leads")), None)

    def stop(self) -> None:
        for name in list(self.running):
            self.kill(name)


def told(nodes: Nodes) -> None:
    """Prints where the nodes are, and who leads."""
    leader = until(nodes.leader)
    for name, address in nodes.addresses.items():
        process = nodes.running.get(name)
        state = "is not running" if not process else f"is process {process.pid}{', and leads' if name == leader else ''}"
        print(f"node {name} at {address} {state}")


def command(nodes: Nodes, line: str) -> None:
    """Does what a line says: kill NAME, start NAME, or the state of all."""
    word, _, name = line.strip().partition(" ")
    if word == "kill" and name in nodes.running:
        nodes.kill(name)
    elif word == "start" and name in nodes.addresses and name not in nodes.running:
        nodes.start(name)
    told(nodes)


def main(folder: str, script: str) -> int:
    members = Members(f"{folder}/etcd")
    nodes = Nodes(folder, script, members.endpoints)
    try:
        nodes.start()
        told(nodes)
        print(f"etcd at {','.join(members.endpoints)}")
        print(f"export NODES={','.join(nodes.addresses.values())}")
        print("kill NAME and start NAME end and start a node, an empty line ends all", flush=True)
        for line in sys.stdin:
            if not line.strip():
                break
            command(nodes, line)
    finally:
        nodes.stop()
        members.stop()
    return 0


if __name__ == "__main__":
    if len(sys.argv) != 3:
        sys.exit(__doc__)
    sys.exit(main(*sys.argv[1:]))
