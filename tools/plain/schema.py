"""The nodes and types of modules, version by version (RFC 7950; `sal_grouping` Growth, Augments, Versions; `sal_module_table`; `sal_typedefs` Types).

It assumes that the modules have no fault: the faults that `schema` refuses are not checked here.
"""
import re
from types import SimpleNamespace as Type

from .scalars import pattern_of
from .statements import read_module

MADE = ("container", "leaf", "leaf-list", "list", "choice", "case", "rpc", "notification")  # Growth, `is_node`
DATA = ("container", "presence", "list", "leaf-list", "leaf")
ENTRIES = ("list", "leaf-list")
MESSAGES = ("input", "output", "notification")
WHOLE = {f"{sign}int{bits}": (bits, not sign) for sign in ("", "u") for bits in (8, 16, 32, 64)}


class Node:
    """A node: its statement, and the kind of a node that is implied around or in the statement, or None (Nodes; Inherited)."""

    def __init__(self, number, parent, module, stmt, implied):
        self.number, self.parent, self.module, self.stmt, self.implied = number, parent, module, stmt, implied
        self.kind = implied or ("presence" if stmt.keyword == "container" and stmt.all("presence") else stmt.keyword)
        self.name = self.kind if self.kind in ("input", "output") else stmt.argument
        self.config = parent.config if parent else True
        if self.kind in ("rpc", "notification"):
            self.config = None
        elif self.config is not None and not implied:
            self.config = stmt.stated("config", "true" if self.config else "false") == "true"
        self.mandatory = not implied and stmt.stated("mandatory") == "true"
        self.min_elements = 0 if implied else int(stmt.stated("min-elements", "0"))
        most = None if implied else stmt.stated("max-elements", "unbounded")
        self.max_elements = None if most in (None, "unbounded") else int(most)
        self.type, self.keys, self.uniques = None, [], []

    def data_node(self):
        """The data parent of nodes below this one: choices and cases are skipped."""
        node = self
        while node is not None and node.kind in ("choice", "case"):
            node = node.parent
        return node

    def data_parent(self):
        return self.parent.data_node() if self.parent else None


class Table:
    """A version of a schema, and its look-ups (`sal_schema` Table, Names)."""

    def __init__(self, modules, nodes, identities):
        self.modules, self.nodes, self.identities = modules, nodes, identities
        self.identity_called = {(modules[it.module], it.name): number for number, it in enumerate(identities)}
        self.children = {number: [] for number in (None, *range(len(nodes)))}
        self.named, self.rpcs, self.notifications = {}, {}, {}
        for node in nodes:
            self.children[node.parent.number if node.parent else None].append(node.number)
            name = (modules[node.module], node.name)
            if node.kind in DATA:
                above = node.data_parent()
                self.named[(above.number if above else None, *name)] = node.number
            elif node.kind in ("rpc", "notification"):
                (self.rpcs if node.kind == "rpc" else self.notifications)[name] = node.number

    def child(self, parent, module, name):
        """The data node of this name below a node or at the root, through choices and cases (Names, `child_of`)."""
        return self.named.get((parent, module, name))

    def module(self, number):
        return self.modules[self.nodes[number].module]

    def full_name(self, number):
        return f"{self.module(number)}:{self.nodes[number].name}"

    def is_kind(self, number, kinds):
        return number is not None and self.nodes[number].kind in kinds


class Builder:
    """Builds a schema from the texts of modules; each addition is a version."""

    def __init__(self):
        self.tops, self.nodes, self.identities, self.tables = [], [], [], []

    # -- names (`sal_module` Imports; `sal_grouping` Groupings; `sal_typedefs` Scopes)

    def meant(self, module, text, other):
        """The module and the name of a name with a prefix in a module; without a prefix the module is `other`."""
        if ":" not in text:
            return other, text
        prefix, name = text.split(":", 1)
        if self.tops[module].stated("prefix") == prefix:
            return module, name
        one = next(it for it in self.tops[module].all("import") if it.stated("prefix") == prefix)
        return next(number for number, top in enumerate(self.tops) if top.argument == one.argument), name

    def definition(self, stmt, keyword):
        """The grouping or typedef that a statement names: of the same module in the closest block around, of another module at its top level."""
        module, name = self.meant(stmt.module, stmt.argument, stmt.module)
        block = stmt.around if module == stmt.module else self.tops[module]
        while True:
            for one in block.all(keyword):
                if one.argument == name:
                    return one
            block = block.around

    def identity_of(self, module, text):
        wanted = self.meant(module, text, module)
        return next(number for number, it in enumerate(self.identities) if (it.module, it.name) == wanted)

    # -- growth (Growth, `grow`)

    def nodes_in(self, block):
        for sub in block.subs:
            if sub.keyword in MADE:
                yield sub
            elif sub.keyword == "uses":
                yield from self.nodes_in(self.definition(sub, "grouping"))

    def seeds_in(self, block, kind):
        return [(stmt, "case" if kind == "choice" and stmt.keyword != "case" else None) for stmt in self.nodes_in(block)]

    def below(self, node):
        stmt = node.stmt
        if node.implied == "case":
            return [(stmt, None)]
        if node.implied:
            return []
        if node.kind == "rpc":
            return [next(((it, None) for it in stmt.all(side)), (stmt, side)) for side in ("input", "output")]
        return self.seeds_in(stmt, node.kind)

    def grow(self, parent, module, seeds):
        for stmt, implied in seeds:
            node = Node(len(self.nodes), parent, module, stmt, implied)
            self.nodes.append(node)
            self.grow(node, module, self.below(node))

    # -- augments, applied in rounds (Augments, `rounds`)

    def target(self, augment):
        node = None
        for step in augment.argument.split("/")[1:]:
            wanted = (node, *self.meant(augment.module, step, augment.module))
            node = next((it for it in self.nodes if (it.parent, it.module, it.name) == wanted), None)
            if node is None:
                return None
        return node

    def augment(self, left):
        while left:
            still = []
            for one in left:
                node = self.target(one)
                if node is None:
                    still.append(one)
                else:
                    self.grow(node, one.module, self.seeds_in(one, node.kind))
            if len(still) == len(left):
                raise ValueError("an augment without a target")
            left = still

    # -- types (Types, `restricted`; Restrictions; Entries)

    def type_of(self, stmt, node):
        """The type of a type statement at a node: a leafref has the type of its target."""
        name = stmt.argument
        if name in WHOLE:
            bits, signed = WHOLE[name]
            low = -(2 ** (bits - 1)) if signed else 0
            base = Type(kind="int", bits=bits, signed=signed, parts=[(low, low + 2**bits - 1)])
        elif name == "decimal64":
            base = Type(kind="dec", digits=int(stmt.stated("fraction-digits")), parts=[(-(2**63), 2**63 - 1)])
        elif name in ("string", "binary"):
            base = Type(kind="text" if name == "string" else "bin", parts=[(0, 2**64 - 1)], patterns=[])
        elif name in ("boolean", "empty"):
            return Type(kind="bool" if name == "boolean" else "empty")
        elif name in ("enumeration", "bits"):
            return Type(kind="enum" if name == "enumeration" else "bits", entries=self.own_entries(stmt, name))
        elif name == "identityref":
            return Type(kind="ident", bases=[self.identity_of(stmt.module, it.argument) for it in stmt.all("base")])
        elif name == "union":
            return Type(kind="union", members=[one for sub in stmt.all("type") for one in self.members(self.type_of(sub, node))])
        elif name == "leafref":
            return self.type_of_node(self.leafref_target(stmt, node))
        else:
            base = self.type_of(self.definition(stmt, "typedef").all("type")[0], node)
        return self.restricted(base, stmt)

    @staticmethod
    def members(type):
        return type.members if type.kind == "union" else [type]

    @staticmethod
    def own_entries(stmt, name):
        """The names of an enumeration with values and places, or of bits with positions: a number that is not given is one more than the highest."""
        entries = []
        for place, item in enumerate(stmt.all("enum" if name == "enumeration" else "bit")):
            given = item.stated("value" if name == "enumeration" else "position")
            number = max((it[1] for it in entries), default=-1) + 1 if given is None else int(given)
            entries.append((item.argument, number, place) if name == "enumeration" else (item.argument, number))
        return entries

    def restricted(self, base, stmt):
        made = Type(**vars(base))
        if base.kind in ("int", "dec", "text", "bin"):
            text = stmt.stated("range" if base.kind in ("int", "dec") else "length")
            made.parts = read_ranges(text, base.parts, base.digits if base.kind == "dec" else 0) if text is not None else base.parts
        if base.kind == "text":
            made.patterns = base.patterns + [(pattern_of(it.argument), bool(it.all("modifier"))) for it in stmt.all("pattern")]
        chosen = [it.argument for keyword in ("enum", "bit") for it in stmt.all(keyword)]
        if base.kind in ("enum", "bits") and chosen:
            made.entries = [next(it for it in base.entries if it[0] == name) for name in chosen]
        return made

    def type_of_node(self, node):
        if node.type is None:
            node.type = self.type_of(node.stmt.all("type")[0], node)
        return node.type

    # -- leafrefs (Leafrefs, `end_of`)

    def leafref_target(self, stmt, node):
        steps = re.sub(r"\[[^\]]*\]", "", stmt.stated("path")).split("/")
        up = next(at for at, step in enumerate(steps) if step != "..")
        place = node.data_parent() if up else None
        for _ in range(up - 1):
            place = None if place.kind in MESSAGES else place.data_parent()
        message = node
        while message is not None and message.kind not in MESSAGES:
            message = message.parent
        for step in steps[up or 1 :]:
            place = self.step_down(message, place, *self.meant(stmt.module, step, node.module))
        return place

    def step_down(self, message, place, module, name):
        """A name at the root may be that of the RPC or notification itself, and then is its message."""
        if place is None and message is not None:
            operation = message.parent or message
            if (operation.module, operation.name) == (module, name):
                return message
        return next(it for it in self.nodes if it.kind in DATA and (it.data_parent(), it.module, it.name) == (place, module, name))

    # -- lists (Lists, `keys_of`, `uniques_of`)

    def child_named(self, node, leaf, above, text):
        module, name = self.meant(node.stmt.module, text, node.module)
        return next(it for it in self.nodes if (it.kind == "leaf", it.parent, it.module, it.name) == (leaf, above, module, name))

    def unique_leaf(self, node, word):
        *steps, last = word.split("/")
        above = node
        for step in steps:
            above = self.child_named(node, False, above, step)
        return self.child_named(node, True, above, last).number

    def fill(self, node):
        if node.kind in ("leaf", "leaf-list"):
            self.type_of_node(node)
        if node.kind == "list":
            node.keys = [self.child_named(node, True, node, word).number for it in node.stmt.all("key") for word in it.argument.split()]
            node.uniques = [[self.unique_leaf(node, word) for word in it.argument.split()] for it in node.stmt.all("unique")]

    # -- identities (Identities, `derived_from`)

    def derive(self, identity):
        if identity.derived_from is None:
            bases = [self.identity_of(identity.module, it.argument) for it in identity.stmt.all("base")]
            identity.derived_from = set(bases).union(*(self.derive(self.identities[it]) for it in bases))
        return identity.derived_from

    def add(self, texts):
        """The next version: the older nodes keep their numbers, then the new modules' trees, then the nodes of their augments (Versions)."""
        old_tops, old_nodes = len(self.tops), len(self.nodes)
        self.tops += [read_module(text, old_tops + at) for at, text in enumerate(texts)]
        new = self.tops[old_tops:]
        self.identities += [Type(name=it.argument, module=top.module, stmt=it, derived_from=None) for top in new for it in top.all("identity")]
        for identity in self.identities:
            self.derive(identity)
        for top in new:
            self.grow(None, top.module, self.seeds_in(top, None))
        self.augment([it for top in new for it in top.all("augment")])
        for node in self.nodes[old_nodes:]:
            self.fill(node)
        self.tables.append(Table([top.argument for top in self.tops], list(self.nodes), list(self.identities)))


def read_ranges(text, within, digits):
    """The parts of a range or length, as whole numbers of units (`sal_restrict` RangeTexts)."""
    def bound(word):
        if word in ("min", "max"):
            return within[0][0] if word == "min" else within[-1][1]
        sign, whole, further = re.fullmatch(r"(-?)([0-9]+)(?:\.([0-9]+))?", word).groups()
        return int(whole + (further or "").ljust(digits, "0")) * (-1 if sign else 1)

    bounds = [[bound(word.strip()) for word in part.split("..")] for part in text.split("|")]
    return [(it[0], it[-1]) for it in bounds]


def versions_of(modules, upgrades):
    """The tables of the versions of a schema, version 0 first."""
    builder = Builder()
    for texts in (modules, *upgrades):
        builder.add(texts)
    return builder.tables
