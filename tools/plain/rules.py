"""Structural rules of trees, and why writes are refused (RFC 7950; `sal_rules` Contexts, Rules, Breaches, Refusals; `sal_schema` Fitting)."""
from . import Refused
from .data import quoted
from .paths import MOST, node_of, written
from .schema import DATA, ENTRIES

MANDATORY, MIN, MAX, UNIQUE, CASES = range(5)  # the order of rules
WORDS = ("mandatory", "min-elements", "max-elements", "unique", "two-cases")


# -- writes (Refusals, `refusal`)

def has_mark(table, path):
    """Presence containers and entries have a row of their own with a mark."""
    return bool(path) and (path[-1][0] != 0 or table.is_kind(path[-1][1], ("presence",)))


def has_own_row(table, path):
    return has_mark(table, path) or bool(path) and table.is_kind(path[-1][1], ("leaf",))


def is_of_state(table, path):
    node = node_of(path)
    return node is not None and table.nodes[node].config is False


def missing_parent(table, tree, path):
    """The outermost list entry or presence container above a path that is missing in the tree."""
    above = (path[:depth] for depth in range(1, len(path)))
    return next((it for it in above if has_mark(table, it) and not tree.has(it)), None)


class ParentMissing(Refused):
    """A refusal that a transaction with checked reads records."""


def refuse(table, tree, op):
    """Raises the first cause to refuse a write over the tree that a transaction sees."""
    def at(path):
        return quoted(written(table, path))

    if not op.path:
        raise Refused("root-path")
    step, node = op.path[-1], table.nodes[node_of(op.path)]
    if step[0] == 0 and node.parent and node.number in node.parent.keys:
        raise Refused(f"key-leaf {at(op.path)}")
    state = next((path for path in [op.path, *(row[0] for row in op.rows)] if is_of_state(table, path)), None)
    if op.store == "config" and state is not None:
        raise Refused(f"not-config {at(state)}")
    missing = missing_parent(table, tree, op.path) if op.needs_parents() else None
    if missing is not None:
        fault = ParentMissing(f"parent-missing {at(missing)}")
        fault.path = missing
        raise fault


# -- the rules of a schema, and where each is judged (Contexts; Rules, `broken`)

def context(node):
    """The closest node above that is not a container without presence, and the steps from it down to the data parent."""
    way, above = (), node.parent
    while above is not None and above.kind == "container":
        way, above = ((0, above.number),) + way, above.parent
    return above, way


def way_in_entry(table, leaf):
    way, node = (), table.nodes[leaf]
    while node.kind != "list":
        way, node = ((0, node.number),) + way if node.kind in DATA else way, node.parent
    return way


def rules_of(table, store):
    """For each node (None for the root) the rules that are judged at its places: the rule, its node, its context and the steps from there."""
    found = {}
    for node in table.nodes:
        if node.config is None or store == "config" and not node.config:
            continue
        above, way = context(node)
        stand, parent = above.data_node() if above else None, node.data_parent()
        stated = [
            (MANDATORY, stand, node.mandatory and node.kind in ("leaf", "choice")),
            (MIN, stand, node.kind in ENTRIES and node.min_elements > 0),
            (MAX, parent, node.kind in ENTRIES and node.max_elements is not None),
            (UNIQUE, parent, node.kind == "list" and node.uniques),
            (CASES, parent, node.kind == "choice"),
        ]
        for rule, place, is_stated in stated:
            if is_stated:
                found.setdefault(place, []).append((rule, node, above, way))
    return found


def lineage(node):
    """The numbers of a node and of its data parents, up to the root."""
    while node is not None:
        yield node.number
        node = node.data_parent()


CELL = None  # the key of a place's own cell, among its steps


def nested(tree):
    """The places of a tree: each has its steps with the places below, and its own cell if it has one (Places; Seen)."""
    root = {}
    for path, cell in zip(tree.paths, tree.cells):
        here = root
        for step in path:
            here = here.setdefault(step, {})
        here[CELL] = cell
    return root


def down(here, way):
    for step in way:
        here = here.get(step, {})
    return here


def entries(here):
    return [step for step, below in here.items() if step is not CELL and CELL in below]


class Judge:
    """Judges the rules of the trees of a store (Rules, `broken`; Breaches, `breach`)."""

    def __init__(self, table, store):
        self.table, self.rules = table, rules_of(table, store)
        self.ruled = {number for node in self.rules for number in lineage(node)}  # there are rules at these nodes or below,
        self.open = {number for node in self.rules if node for number in lineage(node.data_parent())}  # and below these

    def stands(self, here, node):
        """A data child of a place is present; a choice or case is if a node in it is."""
        if node.kind in ("choice", "case"):
            return any(self.stands(here, self.table.nodes[it]) for it in self.table.children[node.number])
        return (0, node.number) in here

    def is_demanded(self, here, above, way):
        if above is None:
            return bool(way) and way[0] in here
        return above.kind != "case" or self.stands(here, above)

    def repeats(self, here, leafs):
        """Two entries have the same values of all these leafs."""
        ways, seen = [way_in_entry(self.table, leaf) for leaf in leafs], set()
        for entry in entries(here):
            cells = tuple(down(here[entry], way).get(CELL) for way in ways)
            if None not in cells:
                if cells in seen:
                    return True
                seen.add(cells)
        return False

    def broken_at(self, here, rule, node, above, way):
        """The steps from a place to where it breaks a rule, or None."""
        step = ((0, node.number),)
        if rule == MANDATORY:
            return way if self.is_demanded(here, above, way) and not self.stands(down(here, way), node) else None
        if rule == MIN:
            return way + step if self.is_demanded(here, above, way) and len(entries(down(here, way + step))) < node.min_elements else None
        if rule == MAX:
            return step if len(entries(down(here, step))) > node.max_elements else None
        if rule == UNIQUE:
            return step if any(self.repeats(down(here, step), leafs) for leafs in node.uniques) else None
        return () if sum(self.stands(here, self.table.nodes[it]) for it in self.table.children[node.number]) > 1 else None

    def judge(self, here, place, node, found):
        """Adds the breaches of rules that are judged at a place and below it: not at a list itself, but at its entries."""
        if place and place[-1][0] == 0 and node.kind in ENTRIES:
            for step, below in here.items():
                self.judge(below, place + (step,), node, found)
            return
        for rule, at, above, way in self.rules.get(node, ()):
            steps = self.broken_at(here, rule, at, above, way)
            if steps is not None and len(place + steps) <= MOST:
                found.append((place + steps, rule, at.number))
        for step, below in here.items() if node is None or node.number in self.open else ():
            if step is not CELL and step[1] in self.ruled:
                self.judge(below, place + (step,), self.table.nodes[step[1]], found)

    def breach(self, tree):
        """The breach with the least path, then rule, then node, or None."""
        found = []
        if self.rules:
            self.judge(nested(tree), (), None, found)
        return min(found, default=None)


def breach_text(table, breach):
    path, rule, node = breach
    return f"{quoted(written(table, path))} {WORDS[rule]} {table.full_name(node)}"
