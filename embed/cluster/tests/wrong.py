"""Nodes that are wrong on purpose: the tests must find each of them. And one that is right, but cuts into short parts.

    wrong.py KIND, and then the words of a node

| kind | what it does wrong |
|---|---|
| `unfenced` | appends, and answers reads, without a comparison |
| `no-term` | appends after a comparison of the tail alone |
| `early` | answers before the append |
| `stale` | answers reads without a comparison of the term |
| `local` | answers reads after a comparison that a member makes alone, from what it has |
| `parts` | nothing: but most of its appends and snapshots go in parts |
"""
import sys
from typing import Any

import mdsal_cluster.log
from mdsal_cluster.etcd import Json, has_value, was_modified_at
from mdsal_cluster.leader import Leader, Made
from mdsal_cluster.log import Fenced, Log, Tail, until_answered
from mdsal_cluster.node import Node, words_of


class NoTerm(Log):
    def fences(self, term: int, above: Tail) -> list[Json]:
        return [has_value(self.tail, str(above))]


class Stale(Log):
    def confirm(self, term: int) -> None:
        pass


class Local(Log):
    def confirm(self, term: int) -> None:
        if not until_answered(lambda: self.etcd.transaction([was_modified_at(self.leader, term)], [])).held:
            raise Fenced(f"a read in term {term}")


class Unfenced(Stale):
    def fences(self, term: int, above: Tail) -> list[Json]:
        return []


class Early(Leader):
    def waiting(self, answer: dict[str, Any]) -> Made:
        it = Made({"number": self.broker.number, **answer}, is_durable=True)
        it.done.set()
        return it


LOGS: dict[str, type[Log]] = {"unfenced": Unfenced, "no-term": NoTerm, "stale": Stale, "local": Local}
LEADERS: dict[str, type[Leader]] = {"early": Early}

if __name__ == "__main__":
    KIND = sys.argv[1]
    if KIND == "parts":
        mdsal_cluster.log.PART = 100
    Node(words_of(sys.argv[2:]), LOGS.get(KIND, Log), LEADERS.get(KIND, Leader)).run()
