"""Paths as texts (RFC 7951 section 6.11; `sal_pathtext` Read, Nodes, Words, Written).

A path is a tuple of steps. A step is a tuple: (0, the number of a node), (1, the values of an entry's keys), or (2, the value of a leaf-list's entry).
So paths have the order of Python's tuples.
"""
import re

from . import Refused
from .scalars import BadScalar, text_of, text_scalar_of
from .schema import ENTRIES

MOST = 32  # steps of a path
IDENTIFIER = re.compile(r"[A-Za-z_][A-Za-z0-9_.-]*")
BLANKS = re.compile(r"[ \t]*")
SINGLE = re.compile(r"'((?:[^']|'')*)'(?!')")
DOUBLE = re.compile(r'"([^"]*)"')


def node_of(path):
    """The number of the node that a path names: the list for each of its entries (`sal_schema` Paths, `node_of`)."""
    return next((step[1] for step in reversed(path) if step[0] == 0), None)


# -- read

class Reader:
    """Reads from the left; `node`, `wants_entry` and `name_at` belong to the last name (Read, `steps`)."""

    def __init__(self, table, text):
        self.table, self.text, self.at = table, text, 0
        self.node, self.wants_entry, self.name_at = None, False, 0

    def fault(self, word, at):
        return Refused(f"path {word} {len(self.text[:at].encode())}")

    def peek(self):
        return self.text[self.at : self.at + 1]

    def take(self, pattern):
        found = pattern.match(self.text, self.at)
        if not found:
            raise self.fault("bad-text", self.at)
        self.at = found.end()
        return found

    def expected(self, character):
        self.take(BLANKS)
        if self.peek() != character:
            raise self.fault("bad-text", self.at)
        self.at += 1

    def name(self):
        word = self.take(IDENTIFIER)[0]
        if self.peek() != ":":
            return None, word
        self.at += 1
        return word, self.take(IDENTIFIER)[0]

    def meant(self, above, name):
        """The node of a name, which has its module at the root, and if the module differs from that of the node above (Nodes, `meant`)."""
        module, word = name
        own = None if above is None else self.table.module(above)
        if module == own:
            return None
        return self.table.child(above, module or own, word)

    # predicates (Read, `predicate`)

    def subject(self):
        if self.peek() == ".":
            self.at += 1
            return self.node if self.table.is_kind(self.node, ("leaf-list",)) else None
        leaf = self.meant(self.node, self.name())
        return leaf if leaf in self.table.nodes[self.node].keys else None

    def quoted(self):
        self.take(BLANKS)
        if self.peek() not in ("'", '"'):
            raise self.fault("bad-text", self.at)
        found = (SINGLE if self.peek() == "'" else DOUBLE).match(self.text, self.at)
        if not found:
            raise self.fault("bad-text", len(self.text))
        self.at = found.end()
        return found[1].replace("''", "'") if found[0][0] == "'" else found[1]

    def predicate(self, given):
        start = self.at
        self.at += 1
        self.take(BLANKS)
        leaf = self.subject()
        if leaf is None or leaf in given:
            raise self.fault("bad-predicate", start)
        self.expected("=")
        text = self.quoted()
        try:
            given[leaf] = text_scalar_of(self.table, self.table.nodes[leaf], text)
        except BadScalar:
            raise self.fault("bad-predicate", start) from None
        self.expected("]")

    def entered(self):
        if not self.wants_entry:
            raise self.fault("bad-predicate", self.at)
        given = {}
        while self.peek() == "[":
            self.predicate(given)
        self.wants_entry = False
        if self.table.is_kind(self.node, ("leaf-list",)):
            return (2, given[self.node])
        keys = self.table.nodes[self.node].keys
        if any(key not in given for key in keys):
            raise self.fault("bad-predicate", self.name_at)
        return (1, tuple(given[key] for key in keys))

    # steps (Read, `step`)

    def named(self):
        self.at += 1
        start = self.at
        name = self.name()
        if self.wants_entry and self.table.is_kind(self.node, ("list",)):
            raise self.fault("bad-predicate", self.name_at)
        node = self.meant(self.node, name)
        if node is None:
            raise self.fault("unknown-node", start)
        self.node, self.wants_entry, self.name_at = node, self.table.is_kind(node, ENTRIES), start
        return (0, node)

    def step(self):
        if self.peek() not in ("[", "/"):
            raise self.fault("bad-text", self.at)
        return self.entered() if self.peek() == "[" else self.named()

    def path(self):
        if not self.text.startswith("/"):
            raise self.fault("bad-text", 0)
        steps = []
        while self.text != "/" and self.at < len(self.text):
            if len(steps) == MOST and self.peek() == "[" and self.wants_entry:
                self.predicate({})
                raise Refused("path too-deep")
            steps.append(self.step())
            if len(steps) > MOST:
                raise Refused("path too-deep")
        return tuple(steps)


def read_path(table, text):
    return Reader(table, text).path()


# -- written

def in_quotes(text):
    if "'" not in text:
        return f"'{text}'"
    return f'"{text}"' if '"' not in text else "'" + text.replace("'", "''") + "'"


def name_text(table, above, node):
    same = above is not None and table.module(above) == table.module(node)
    return table.nodes[node].name if same else table.full_name(node)


def written(table, path):
    text, here = "", None
    for kind, what in path:
        if kind == 0:
            text += "/" + name_text(table, here, what)
            here = what
            continue
        node = table.nodes[here]
        pairs = [(".", node, what)] if kind == 2 else [(name_text(table, here, leaf), table.nodes[leaf], value) for leaf, value in zip(node.keys, what)]
        text += "".join(f"[{name}={in_quotes(text_of(table, leaf, value))}]" for name, leaf, value in pairs)
    return text or "/"
