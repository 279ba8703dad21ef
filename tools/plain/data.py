"""Data as JSON (RFC 7951; `sal_data` Read, Members, Written)."""
import json

from . import Refused
from .paths import MOST, node_of, written
from .rows import MARK
from .scalars import BadScalar, json_of, scalar_of
from .schema import ENTRIES


def compact(value):
    return json.dumps(value, ensure_ascii=False, separators=(",", ":"), sort_keys=True)


def quoted(text):
    return json.dumps(text, ensure_ascii=False)


# -- names of members (Members)

def member_name(table, above, node):
    """A name has its module at the root, and if the module differs from that of the node above."""
    same = above is not None and table.nodes[above].module == table.nodes[node].module
    return table.nodes[node].name if same else table.full_name(node)


def member_node(table, above, path, name):
    own = None if above is None else table.module(above)
    module, word = name.split(":", 1) if ":" in name else (own, name)
    node = table.child(above, module, word)
    if node is not None and member_name(table, above, node) == name:
        return node
    of_some_module = above is None or any(table.child(above, it, name) is not None for it in table.modules)
    raise Fault("needs-module" if ":" not in name and of_some_module else "unknown-member", path, quoted(name))


class Fault(Exception):
    """A fault of data: its keyword, its path, and the optional text after it."""


# -- read (Read, `read_data`)

class Reader:
    """Reads the rows that JSON denotes, in the order of the text; the first fault counts."""

    def __init__(self, table):
        self.table, self.rows = table, {}

    def scalar(self, node, path, value):
        try:
            return scalar_of(self.table, self.table.nodes[node], value)
        except BadScalar as fault:
            raise Fault("bad-scalar", path, str(fault)) from None

    def longer(self, path, step):
        if len(path) == MOST:
            raise Fault("too-deep", path)
        return path + (step,)

    def key_step(self, node, path, value):
        if not isinstance(value, dict):
            raise Fault("wrong-shape", path)
        values = []
        for leaf in self.table.nodes[node].keys:
            name = member_name(self.table, node, leaf)
            if name not in value:
                raise Fault("missing-key", path)
            values.append(self.scalar(leaf, path, value[name]))
        return (1, tuple(values))

    def entry_step(self, node, path, value):
        return self.key_step(node, path, value) if self.table.is_kind(node, ("list",)) else (2, self.scalar(node, path, value))

    def entry(self, node, path, value):
        """The entry at a path, whose step is known to be its own."""
        self.rows[path] = MARK
        if self.table.is_kind(node, ("list",)):
            self.members(node, path, value)

    def entries(self, node, path, values):
        seen = set()
        for value in values:
            step = self.entry_step(node, path, value)
            below = self.longer(path, step)
            if step in seen:
                raise Fault("double-entry", below)
            seen.add(step)
            self.entry(node, below, value)

    def members(self, above, path, value):
        if not isinstance(value, dict):
            raise Fault("wrong-shape", path)
        for name in sorted(value):
            node = member_node(self.table, above, path, name)
            self.node(node, self.longer(path, (0, node)), value[name])

    def node(self, node, path, value):
        kind = self.table.nodes[node].kind
        if kind == "leaf":
            self.rows[path] = self.scalar(node, path, value)
        elif kind in ENTRIES and isinstance(value, list):
            self.entries(node, path, value)
        elif kind in ENTRIES or not isinstance(value, dict):
            raise Fault("wrong-shape", path)
        else:
            if kind == "presence":
                self.rows[path] = MARK
            self.members(node, path, value)

    def at(self, path, value):
        if not path:
            self.members(None, path, value)
        elif path[-1][0] == 0:
            self.node(path[-1][1], path, value)
        else:
            node = node_of(path)
            if self.entry_step(node, path[:-1], value) != path[-1]:
                raise Fault("key-differs", path)
            self.entry(node, path, value)


def read_data(table, path, value):
    """The rows that a JSON value denotes at a path, in order."""
    reader = Reader(table)
    try:
        reader.at(path, value)
    except Fault as fault:
        word, place, *more = fault.args
        raise Refused(" ".join(["data", word, quoted(written(table, place)), *more])) from None
    return sorted(reader.rows.items())


# -- written (Written, `write_data`)

def runs_of(rows, depth):
    """The rows, grouped by their next step."""
    runs = []
    for row in rows:
        if len(row[0]) > depth:
            if not runs or runs[-1][0] != row[0][depth]:
                runs.append((row[0][depth], []))
            runs[-1][1].append(row)
    return runs


def members_json(table, above, depth, rows):
    return {member_name(table, above, step[1]): node_json(table, step[1], depth + 1, run) for step, run in runs_of(rows, depth)}


def node_json(table, node, depth, rows):
    """The value of a node with rows at and below a path of `depth` steps."""
    kind = table.nodes[node].kind
    if kind == "leaf":
        return json_of(table, table.nodes[node], rows[0][1]) if rows else None
    if kind == "leaf-list":
        return [json_of(table, table.nodes[node], step[1]) for step, _ in runs_of(rows, depth)]
    if kind == "list":
        return [members_json(table, node, depth + 1, run) for _, run in runs_of(rows, depth)]
    return members_json(table, node, depth, rows)


def write_data(table, path, rows):
    """The JSON value of the rows at a path and below it."""
    if path and path[-1][0] == 0:
        return node_json(table, path[-1][1], len(path), rows)
    if path and path[-1][0] == 2:
        return json_of(table, table.nodes[node_of(path)], path[-1][1])
    return members_json(table, node_of(path), len(path), rows)
