"""What clients are told at a takeover, at an epoch and at an upgrade, and that an upgrade is on every node: three members, three nodes, some seconds.

    takeover.py FOLDER      it needs MDSAL_LIBRARY
"""
from __future__ import annotations

import json
import os
import subprocess
import sys
import threading
from collections.abc import Callable
from typing import Any

from checker import FOUND
from mdsal import Refused
from mdsal_cluster.client import Client, Ended, NoLeader, Unanswered, asked, look_at
from mdsal_cluster.election import address_of
from mdsal_cluster.local import NODE, Members, Nodes, until
from mdsal_cluster.port import Link

FIRST = "module m { namespace 'urn:m'; prefix m; container box { leaf a { type string; } leaf n { type uint32; } } }"
SECOND = "module n { namespace 'urn:n'; prefix n; import m { prefix m; } augment /m:box { leaf b { type string; } } }"
THIRD = "module o { namespace 'urn:o'; prefix o; import m { prefix m; } augment /m:box { leaf c { type string; } } }"
FOURTH = "module p { namespace 'urn:p'; prefix p; import m { prefix m; } augment /m:box { leaf d { type string; } } }"
SWITCH = "module s { namespace 'urn:s'; prefix s; container switch { leaf speed { type uint32; } } }"
DEVICE = {"modules": [SWITCH], "config": {"s:switch": {"speed": 10}}}
SCRIPT = {"modules": [FIRST], "upgrades": [[SECOND], [THIRD]], "devices": [DEVICE], "rules": 2, "reads": "checked"}
WIDER = {**SCRIPT, "upgrades": [[SECOND], [THIRD], [FOURTH]], "devices": [DEVICE, DEVICE]}
OPEN = [["begin", 0, 0, "rw"], ["put", 0, "config", "/m:box/a", "lost"]]


def fails(what: tuple[type[Exception], ...], call: Callable[..., Any], *words: Any) -> bool:
    try:
        call(*words)
    except what:
        return True
    return False


class Takeover:
    """The tests, in turn: each goes on from the one before."""

    def __init__(self, nodes: Nodes):
        self.nodes, self.faults = nodes, 0
        self.client = Client(list(nodes.addresses.values()), 15.0)

    def check(self, what: str, holds: object) -> None:
        print(f"{'ok' if holds else 'FAULT'}: {what}", flush=True)
        self.faults += not holds

    def put(self, path: str, value: Any) -> None:
        self.client.update(lambda it: it.put("config", path, value))

    def value(self, path: str) -> Any:
        return self.client.look("config", path)[0]

    def told_before_an_upgrade(self) -> None:
        self.put("/m:box/a", "x")
        self.check("what was committed is read", self.value("/m:box/a") == "x")
        self.check("a name of a later version is refused", fails((Refused,), self.put, "/m:box/n:b", "y"))
        self.check("a request that is none is said to be one", asked(self.client.at, {"steps": 1}) == {"error": "bad request"})
        self.check("and so is a store that is none", asked(self.client.at, {"look": ["x", "/"]}) == {"error": "bad request"})
        link = Link(address_of(self.client.at), 5.0)
        link.socket.sendall(b"{\n[1]\n")
        self.check("and so are lines that are no requests", [link.file.readline() for _ in range(2)] == [b'{"error": "bad request"}\n'] * 2)
        link.close()

    def two_clients(self) -> None:
        """Two clients count up at the same time: conflicts begin again."""
        def count(link: Client) -> None:
            for _ in range(20):
                link.update(lambda it: it.put("config", "/m:box/n", (it.read("config", "/m:box/n") or 0) + 1))

        threads = [threading.Thread(target=count, args=(Client(list(self.nodes.addresses.values()), 15.0),)) for _ in range(2)]
        for it in threads:
            it.start()
        for it in threads:
            it.join()
        self.check("two clients count to 40 together", self.value("/m:box/n") == 40)

    def upgrade_and_kill(self) -> None:
        self.check("the leader upgrades", self.client.steps([["upgrade", 1]]).replies == ["ok"])
        self.put("/m:box/n:b", "y")
        self.client.steps([*OPEN, ["listen", 0, 0, "config", "/m:box"]])
        first = self.nodes.leader()
        assert first
        self.nodes.kill(first)
        told = fails((Ended, Unanswered), self.client.steps, [["submit", 0], ["settle", 0]], True)
        self.check("an open transaction ends with its leader", told)
        self.check("and so does a listener", fails((Ended,), self.client.steps, [["take", 0]], True))
        self.check("the next leader has what was committed, and nothing that was open", self.value("/m:box") == {"a": "x", "n": 40, "n:b": "y"})
        self.put("/m:box/n:b", "z")
        self.check("it leads in the upgraded version", self.value("/m:box/n:b") == "z" and fails((Refused,), self.put, "/m:box/o:c", "w"))
        self.check("and upgrades to the next one", self.client.steps([["upgrade", 1]]).replies == ["ok"] and not self.put("/m:box/o:c", "w"))
        self.nodes.start(first)
        number = self.client.look("config", "/")[1]
        looks = until(lambda: self.looks("/m:box/n:b", number))
        self.check("every node has it, also one that was started anew", looks == [("z", number)] * 3)

    def looks(self, path: str, number: int) -> list[Any] | None:
        found = [look_at(it, "config", path, number) for it in self.nodes.addresses.values()]
        return found if all(found) else None

    def follower(self) -> None:
        leader = self.nodes.leader()
        other = next(address for name, address in self.nodes.addresses.items() if name != leader)
        number = self.client.look("config", "/")[1]
        told = asked(other, {"steps": [["begin", 0, 0, "rw"]]}) or {}
        self.check("a follower names the leader", told.get("error") == "not the leader" and told["leader"] == self.nodes.addresses[leader or ""])
        look = asked(other, {"look": ["config", "/"]}) or {}
        self.check("and so it does where a linearizable look is asked for", look.get("error") == "not the leader")
        behind = asked(other, {"look": ["config", "/"], "min": number + 1000})
        self.check("and says where it is, if it is behind", behind == {"error": "behind", "number": number})

    def epoch(self) -> None:
        self.client.steps(OPEN)
        other = Client(list(self.nodes.addresses.values()), 15.0)
        for n in range(100):
            other.update(lambda it: it.put("config", "/m:box/n", n))
        told = fails((Ended,), self.client.steps, [["submit", 0], ["settle", 0]], True)
        self.check("a transaction that an epoch ended is said to have ended", told)
        self.put("/m:box/a", "after")
        self.check("and the next one is made", self.value("/m:box") == {"a": "after", "n": 99, "n:b": "z", "o:c": "w"})

    def speed(self, domain: int) -> Any:
        return self.client.look("config", "/s:switch/speed", domain)[0]

    def set_speed(self, domain: int, speed: int) -> None:
        self.client.update(lambda it: it.put("config", "/s:switch/speed", speed), domain)

    def device(self) -> None:
        """A device's trees outlive the leader; its mount does not."""
        self.check("a device has the trees of the script", self.speed(1) == 10)
        self.check("and is mounted", self.client.steps([["mount", 1, "/m:box"]]).replies == ["ok"] and not self.set_speed(1, 100))
        self.nodes.kill(self.nodes.leader() or "")
        self.check("the next leader has its trees", self.speed(1) == 100)
        self.check("but not its mount", fails((Refused,), self.set_speed, 1, 200))
        self.check("it is mounted anew", self.client.steps([["mount", 1, "/m:box"]]).replies == ["ok"] and not self.set_speed(1, 200))
        self.nodes.start(*(name for name in self.nodes.addresses if name not in self.nodes.running))

    def wider_script(self, folder: str) -> None:
        """Another script begins on all nodes: with an upgrade more, and a device more."""
        number = self.client.look("config", "/")[1]
        self.check("a script that is none is refused, and nothing is lost", fails((Refused,), self.client.renew, "{") and self.speed(1) == 200)
        self.check("so is one without the device", fails((Refused,), self.client.renew, {**SCRIPT, "devices": []}) and self.speed(1) == 200)
        self.check("a wider one begins", self.client.renew(WIDER) == 1)
        self.check("with the trees and numbers of the one before", (self.speed(1), self.client.look("config", "/")[1]) == (200, number))
        self.check("it has a device more", self.client.steps([["mount", 2, "/m:box"]]).replies == ["ok"] and not self.set_speed(2, 300))
        self.check("and an upgrade more", self.client.steps([["upgrade", 1]]).replies == ["ok"] and not self.put("/m:box/p:d", "v"))
        self.nodes.kill(self.nodes.leader() or "")
        self.check("the next leader has both", (self.speed(2), self.value("/m:box/p:d")) == (300, "v"))
        self.nodes.start(*(name for name in self.nodes.addresses if name not in self.nodes.running))
        number = self.client.look("config", "/")[1]
        self.check("every node has them, also one that was started anew, with the first script", until(lambda: self.looks("/m:box/p:d", number)) == [("v", number)] * 3)
        with open(f"{folder}/wider.json", "w", encoding="utf-8") as file:
            json.dump(WIDER, file)
        name = next(it for it in self.nodes.running if it != self.nodes.leader())
        self.nodes.kill(name)
        self.nodes.script = f"{folder}/wider.json"
        self.nodes.start(name)
        self.check("and one that was started with the second", until(lambda: self.looks("/m:box/p:d", number)) == [("v", number)] * 3)

    def other_script(self, folder: str, endpoints: list[str]) -> None:
        with open(f"{folder}/other.json", "w", encoding="utf-8") as file:
            json.dump({"modules": [FIRST]}, file)
        words = [*NODE, "x", "127.0.0.1:0", f"{folder}/other.json", ",".join(endpoints)]
        ran = subprocess.run(words, capture_output=True, text=True, timeout=30)
        self.check("a node with another script stops, and says so", ran.returncode == 1 and "another script" in ran.stderr)

    def nobody(self) -> None:
        for name in list(self.nodes.running):
            self.nodes.kill(name)
        self.check("without a node a client is told so", fails((NoLeader,), Client(list(self.nodes.addresses.values()), 0.5).look, "config", "/"))


def main(folder: str) -> int:
    os.makedirs(folder, exist_ok=True)
    with open(f"{folder}/script.json", "w", encoding="utf-8") as file:
        json.dump(SCRIPT, file)
    members = Members(f"{folder}/etcd")
    nodes = Nodes(f"{folder}/nodes", f"{folder}/script.json", members.endpoints)
    nodes.more = ["--lease", "1", "--epoch", "200", "--snapshot", "20", "--seize"]
    try:
        nodes.start()
        test = Takeover(nodes)
        test.told_before_an_upgrade()
        test.two_clients()
        test.upgrade_and_kill()
        test.follower()
        test.epoch()
        test.device()
        test.wider_script(folder)
        test.other_script(folder, members.endpoints)
        test.nobody()
    finally:
        nodes.stop()
        members.stop()
    print("clients are told what they should be" if not test.faults else f"{test.faults} faults", flush=True)
    return FOUND if test.faults else 0


if __name__ == "__main__":
    sys.exit(main(sys.argv[1]))
