"""Trees as rows in the order of their paths, operations on them, and what they touch (`sal_types` Tree; `sal_rows` Apply, Touch, PathClash).

A cell is a value or MARK: the presence of an entry or a presence container. Trees are never changed: an edit gives a new one.
"""
from bisect import bisect_left
from typing import NamedTuple

MARK = "mark"
END = (3,)  # greater than each step


def run_of(paths, path):
    """Begin and end of the paths at a path and below it, in sorted paths."""
    low = bisect_left(paths, path)
    return low, bisect_left(paths, path + (END,), low)


def is_prefix(path, other):
    return other[: len(path)] == path


class Tree:
    def __init__(self, paths=(), cells=()):
        self.paths, self.cells = list(paths), list(cells)

    def under(self, path):
        low, high = run_of(self.paths, path)
        return list(zip(self.paths[low:high], self.cells[low:high]))

    def has(self, path):
        low = bisect_left(self.paths, path)
        return low < len(self.paths) and is_prefix(path, self.paths[low])

    def cell(self, path):
        low = bisect_left(self.paths, path)
        return self.cells[low] if low < len(self.paths) and self.paths[low] == path else None

    def replaced(self, path, rows):
        """The tree with these rows instead of those at the path and below it."""
        low, high = run_of(self.paths, path)
        paths, cells = [row[0] for row in rows], [row[1] for row in rows]
        return Tree(self.paths[:low] + paths + self.paths[high:], self.cells[:low] + cells + self.cells[high:])

    def merged(self, rows):
        tree = Tree(self.paths, self.cells)
        for path, cell in rows:
            low = bisect_left(tree.paths, path)
            if low < len(tree.paths) and tree.paths[low] == path:
                tree.cells[low] = cell
            else:
                tree.paths.insert(low, path)
                tree.cells.insert(low, cell)
        return tree


class Op(NamedTuple):
    """A put, merge, delete or checked read at a path of a store; a put and a merge have rows."""

    act: str
    store: str
    path: tuple
    rows: list = ()

    def checks_path(self):
        return self.act in ("put", "delete")

    def needs_parents(self):
        return self.act in ("put", "merge")

    def sets(self, path):
        """Whether the operation sets a path, to a cell or to no cell (Apply, `act_setting`)."""
        return is_prefix(self.path, path) if self.checks_path() else self.act == "merge" and any(row[0] == path for row in self.rows)


def applied(tree, store, ops):
    """The tree of a store after operations in their order: at each path the last one that sets it counts (Apply, `apply_ops`)."""
    for op in ops:
        if op.store == store and op.act == "merge":
            tree = tree.merged(op.rows)
        elif op.store == store and op.checks_path():
            tree = tree.replaced(op.path, op.rows)
    return tree


def touched(before, store, ops):
    """The paths of the rows that operations name, and of the rows before that they set: a path is touched if one of these is at it or below (Touch)."""
    paths = set()
    for op in ops:
        if op.store == store:
            paths.update(row[0] for row in op.rows)
            if op.checks_path():
                paths.update(row[0] for row in before.under(op.path))
    return sorted(paths)


def is_covered(earlier, store, path):
    """An earlier put or delete of the store has a prefix of the path (PathClash, `is_covered`)."""
    return any(op.store == store and op.checks_path() and is_prefix(op.path, path) for op in earlier)


def was_read(earlier, store, path):
    return any(op.store == store and op.act == "read" and is_prefix(op.path, path) for op in earlier)


def recorded(mode, store, path, ops):
    """The operations after a read of a path: with a checked read of it, if reads are checked and it is not yet covered (Reads, `recorded`)."""
    known = mode != "checked" or is_covered(ops, store, path) or was_read(ops, store, path)
    return ops if known else [*ops, Op("read", store, path)]
