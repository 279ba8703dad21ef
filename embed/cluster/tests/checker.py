"""Reads all that clients were told, and says what no single order explains. It knows nothing of nodes, of etcd or of the library.

    checker.py FOLDER         reads each *.jsonl of the folder; ends with 3 if it finds a fault

A history is a line of JSON for each request: who asked (`client`), when (`sent`, and `told`, null without an answer), and

    {"do": "read", "values": {NAME: [VERSION, BY]}, "number": N}        the leader told these values, all of one moment, after commit N
    {"do": "look", "values": .., "number": N, "min": M}                 a follower told them, as they were after commit N
    {"do": "write", "id": ID, "read": {NAME: [VERSION, BY]}, "wrote": {NAME: VERSION}, "answer": "done", "number": N}
                                                                        a transaction that read these values and wrote the next versions, commit N;
                                                                        or "conflict", or null, where nobody told what became of it

Each register has the versions 1, 2, .. and each version has the id of the write that made it; version 0 is by nobody. So each value that is told
shows which writes were before it. The checker draws an edge between two requests for each reason why one is before the other:

- of two versions of a register the lower one, and its readers, are before the next;
- a commit is before one with a greater number, and a read stands between its number and the next;
- what was told before another request was sent is before it; but a look may be old, so it is only before what was sent later.

If there is an order that keeps all edges, then all that was told is so at one broker without faults, and each answer was up to date. Else there is a
cycle, which it prints. What has no place in any order is a fault too: two writes of one version, half of a write, a value of nobody, a refused write
that was seen, a conflict without another write, a number twice, a look below its least number.
"""
from __future__ import annotations

import collections
import glob
import json
import sys
from dataclasses import dataclass, field
from typing import Any

Values = dict[str, tuple[int, str]]
Edge = tuple[int, str]
CYCLES = 50  # of which the shortest is printed
SHOWN = 5  # faults that are printed
FOUND = 3  # the exit status of a test that found faults; an error of its own ends it with 1


@dataclass
class Request:
    """A request with what it was told. `place` is its node in the graph."""

    line: dict[str, Any]
    place: int = 0
    values: Values = field(default_factory=dict)  # what it saw
    wrote: dict[str, int] = field(default_factory=dict)

    def __post_init__(self) -> None:
        self.do, self.sent, self.told = self.line["do"], self.line["sent"], self.line["told"]
        self.number, self.answer = self.line.get("number"), self.line.get("answer")
        self.values = {name: (version, by) for name, (version, by) in self.line.get("values", self.line.get("read", {})).items()}
        self.wrote = self.line.get("wrote", {})

    def __str__(self) -> str:
        what = f"{self.do} {self.line['id']}" if self.do == "write" else self.do
        wrote = {name: f" to {version}" for name, version in self.wrote.items()}
        seen = ", ".join(f"{name} {version}{wrote.get(name, '')}" for name, (version, _) in sorted(self.values.items()))
        return f"{what} of client {self.line['client']} ({seen}; {self.answer or 'told'} {self.number})"


def history_of(folder: str) -> list[dict[str, Any]]:
    lines = []
    for path in sorted(glob.glob(f"{folder}/*.jsonl")):
        with open(path, encoding="utf-8") as file:
            lines += [json.loads(it) for it in file]
    return lines


class Checker:
    """The requests of a history, the writes that landed, and the faults found so far."""

    def __init__(self, lines: list[dict[str, Any]]):
        self.requests = [Request(it) for it in lines]
        self.faults: list[str] = []
        self.writes = {it.line["id"]: it for it in self.requests if it.do == "write"}
        self.by: dict[tuple[str, int], str] = {}  # who made a version
        self.landed: list[Request] = []
        self.edges: list[list[Edge]] = []

    def check(self) -> list[str]:
        """Returns all faults."""
        self.find_versions()
        self.check_versions()
        has_versions = not self.faults
        self.check_numbers()
        self.check_looks()
        self.check_conflicts()
        if has_versions:
            self.draw()
            self.find_cycle()
        return self.faults

    # ---- which writes there were

    def fault(self, text: str) -> None:
        if text not in self.faults:
            self.faults.append(text)

    def made(self, name: str, version: int, by: str) -> None:
        if self.by.setdefault((name, version), by) != by:
            self.fault(f"two writes made {name} {version}: {self.by[name, version]} and {by}")

    def find_versions(self) -> None:
        """Collects who made which version, from what was done and from what was seen. A write without an answer landed if a version of it was seen:
        then it made all its versions."""
        for it in self.requests:
            if it.answer == "done":
                self.made_all(it)
            for name, (version, by) in it.values.items():
                if version:
                    self.made(name, version, by)
        landed = set(self.by.values())
        self.landed = [it for name, it in self.writes.items() if name in landed]
        for it in self.landed:
            self.made_all(it)

    def made_all(self, it: Request) -> None:
        for name, version in it.wrote.items():
            self.made(name, version, it.line["id"])

    def check_versions(self) -> None:
        """Each version is by a write that tried to make it, and was not refused; and there is the version before it."""
        for (name, version), by in self.by.items():
            it = self.writes.get(by)
            if not it:
                self.fault(f"{name} {version} is by {by}, whom nobody knows")
            elif it.answer == "conflict":
                self.fault(f"{name} {version} is by {by}, which was refused")
            elif it.wrote.get(name) != version:
                self.fault(f"{name} {version} is by {by}, which did not write it")
            if version > 1 and (name, version - 1) not in self.by:
                self.fault(f"{name} has a version {version} and no version {version - 1}")

    # ---- what has no place in any order

    def check_numbers(self) -> None:
        """Numbers of commits are given once, and the last read's number counts all commits."""
        seen: dict[int, str] = {}
        for it in self.writes.values():
            if it.answer == "done" and seen.setdefault(it.number, it.line["id"]) != it.line["id"]:
                self.fault(f"commit {it.number} is both {seen[it.number]} and {it.line['id']}")
        for it in self.requests:
            if it.line.get("is_last") and it.number != len(self.landed):
                self.fault(f"{len(self.landed)} writes landed, and the last commit is {it.number}")

    def check_looks(self) -> None:
        """A look is not below the number that was asked for, nor below what the client was told by this node before."""
        told: dict[tuple[str, str], int] = collections.defaultdict(int)
        for it in sorted((it for it in self.requests if it.do == "look"), key=lambda it: it.sent):
            key = it.line["client"], it.line["at"]
            if it.number < it.line["min"]:
                self.fault(f"{it}: below its least number {it.line['min']}")
            if it.number < told[key]:
                self.fault(f"{it}: it was told of commit {told[key]} before")
            told[key] = max(told[key], it.number)

    def check_conflicts(self) -> None:
        """A conflict has a reason: another write made a next version of what it read, and was sent before the conflict was told."""
        for it in self.writes.values():
            if it.answer != "conflict":
                continue
            following = [self.by.get((name, version + 1)) for name, (version, _) in it.values.items()]
            if not any(by and by in self.writes and self.writes[by].sent < it.told for by in following):
                self.fault(f"{it}: nothing explains the conflict")

    # ---- the order

    def edge(self, first: int, second: int, why: str) -> None:
        if first != second:
            self.edges[first].append((second, why))

    def draw(self) -> None:
        """Draws the edges between all requests that count: writes that landed, reads and looks."""
        self.nodes = [*self.landed, *(it for it in self.requests if it.do != "write" and it.told is not None)]
        for place, it in enumerate(self.nodes):
            it.place = place
        self.edges = [[] for _ in self.nodes]
        for it in self.nodes:
            self.draw_values(it)
        self.draw_numbers()
        self.draw_times()

    def draw_values(self, it: Request) -> None:
        """What it saw is before it, and it is before the next version."""
        for name, (version, by) in it.values.items():
            if version:
                self.edge(self.writes[by].place, it.place, f"made the {name} {version} that it saw")
            following = self.by.get((name, version + 1))
            if following:
                self.edge(it.place, self.writes[following].place, f"did not see the {name} {version + 1} that it made")

    def draw_numbers(self) -> None:
        """Commits are in the order of their numbers; a read or look is after the commit of its number, and before the next."""
        commits = sorted((it for it in self.landed if it.answer == "done"), key=lambda it: it.number)
        others = sorted((it for it in self.nodes if it.do != "write"), key=lambda it: it.number)
        at = 0
        for it in others:
            while at < len(commits) and commits[at].number <= it.number:
                at += 1
            if at:
                self.edge(commits[at - 1].place, it.place, "has a number that is not above")
            if at < len(commits):
                self.edge(it.place, commits[at].place, "has a lower number")
        for first, second in zip(commits, commits[1:]):
            self.edge(first.place, second.place, "has a lower number")

    def draw_times(self) -> None:
        """Moments are nodes of their own, each before the next: what was told before a moment is before what was sent after it."""
        told = sorted((it for it in self.nodes if it.told is not None), key=lambda it: it.told)
        sent = sorted((it for it in self.nodes if it.do != "look"), key=lambda it: it.sent)
        first, at = len(self.edges), 0
        self.edges += [[] for _ in told]
        for i, it in enumerate(told):
            self.edge(it.place, first + i, "was told before")
            if i:
                self.edge(first + i - 1, first + i, "")
        for it in sent:
            while at < len(told) and told[at].told < it.sent:
                at += 1
            if at:
                self.edge(first + at - 1, it.place, "was sent")

    def find_cycle(self) -> None:
        """Removes what has nothing before it, and what has nothing after it, again and again. What stays has a cycle: a short one is a fault."""
        left = self.trimmed(set(range(len(self.edges))), self.edges)
        back: list[list[Edge]] = [[] for _ in self.edges]
        for it in left:
            for second, why in self.edges[it]:
                back[second].append((it, why))
        left = self.trimmed(left, back)
        found: list[list[str]] = []
        for start in sorted(it for it in left if it < len(self.nodes)):
            found += [it for it in [self.cycle_through(start, left)] if it]
            if len(found) == CYCLES:
                break
        if left:
            self.fault("no order: " + "; ".join(min(found, key=len)))

    @staticmethod
    def trimmed(left: set[int], edges: list[list[Edge]]) -> set[int]:
        """Returns the nodes that stay when those without an edge to them are removed, again and again."""
        count = dict.fromkeys(left, 0)
        for it in left:
            for second, _ in edges[it]:
                if second in count:
                    count[second] += 1
        ready = [it for it in left if not count[it]]
        while ready:
            it = ready.pop()
            del count[it]
            for second, _ in edges[it]:
                if second in count:
                    count[second] -= 1
                    if not count[second]:
                        ready.append(second)
        return set(count)

    def cycle_through(self, start: int, left: set[int]) -> list[str]:
        """Returns the shortest cycle through a node, as sentences; empty if there is none."""
        came: dict[int, tuple[int, str]] = {}
        queue = collections.deque([start])
        while queue:
            it = queue.popleft()
            for second, why in self.edges[it]:
                if second == start:
                    return self.sentences([(it, why), *self.way_back(it, came)], start)
                if second in left and second not in came:
                    came[second] = (it, why)
                    queue.append(second)
        return []

    @staticmethod
    def way_back(at: int, came: dict[int, tuple[int, str]]) -> list[tuple[int, str]]:
        way = []
        while at in came:
            way.append(came[at])
            at = came[at][0]
        return way

    def sentences(self, way: list[tuple[int, str]], start: int) -> list[str]:
        """Returns a sentence for each request of a cycle: why it is before the next one. Moments are left out."""
        told = [(it, why) for it, why in reversed(way) if it < len(self.nodes)]
        following = [it for it, _ in told[1:]] + [start]
        return [f"{self.nodes[it]} {why}: {self.nodes[second]}" for (it, why), second in zip(told, following)]


def summary(lines: list[dict[str, Any]]) -> str:
    count = collections.Counter(it["do"] + (f" {it['answer'] or 'without an answer'}" if it["do"] == "write" else "") for it in lines)
    return ", ".join(f"{number} {what}" for what, number in sorted(count.items()))


def main() -> int:
    lines = history_of(sys.argv[1])
    checker = Checker(lines)
    faults = checker.check()
    print(f"{summary(lines)}, of which {sum(it.answer is None for it in checker.landed)} are there")
    for it in faults[:SHOWN]:
        print("FAULT:", it)
    print("one order explains all that was told" if not faults else f"{len(faults)} faults")
    return FOUND if faults else 0


if __name__ == "__main__":
    sys.exit(main())
