"""The shared calls, answered from the log (`sal_history` History, Submissions, Versions, Outcome, Listeners; `sal_rows` Commits, Spans, Clash, Kinds).

The definitions derive each answer from the whole log. Here a list is kept for each thing that they derive. A call returns what its reply tells; a
refused call raises `Refused` with the fault.
"""
from . import Refused
from .data import compact, quoted, write_data
from .paths import written
from .rows import MARK, Tree, applied, is_covered, run_of, touched
from .rules import Judge, breach_text, has_own_row
from .scalars import json_of
from .services import Mounts, Notes, Router

STORES = ("config", "operational")
MOST_PENDING, MOST_LISTENERS = 4096, 256


class Base:
    """The base of a transaction that began, and whether it was submitted or cancelled (Submissions, `Base`; History, `is_spent`)."""

    def __init__(self, domain, commit, chain, trees):
        self.domain, self.commit, self.chain, self.trees, self.spent = domain, commit, chain, trees, False


class Commit:
    """A commit: for each store the paths that it touches, and its changes as path, cell before, cell after."""

    def __init__(self, before, after, ops, chain):
        self.chain = chain
        self.touched = {s: touched(before[s], s, ops) for s in STORES}
        cells = {s: [(p, before[s].cell(p), after[s].cell(p)) for p in self.touched[s]] for s in STORES}
        self.changes = {s: [it for it in cells[s] if it[1] != it[2]] for s in STORES}

    def touches(self, store, path):
        low, high = run_of(self.touched[store], path)
        return low < high

    def changes_under(self, store, path):
        return [it for it in self.changes[store] if it[0][: len(path)] == path]


class Domain:
    """The versions of a domain's schema, its newest trees, and its commits."""

    def __init__(self, tables, opening, rules):
        self.tables, self.trees, self.rules, self.commits = tables, opening, rules, []

    def table(self, version):
        return self.tables[min(version, len(self.tables) - 1)]

    def rows_at(self, store, number, path):
        """The rows at a path and below it at a commit: the newest ones, with the changes of later commits undone (Commits, `tree_at`)."""
        rows = dict(self.trees[store].under(path))
        for commit in reversed(self.commits[number:]):
            for at, before, _ in commit.changes_under(store, path):
                rows[at] = before
        return {at: cell for at, cell in rows.items() if cell is not None}

    # conflicts (Clash)

    def spans(self, base):
        """The foreign commits after a base, in spans between the commits of its own chain (Spans)."""
        start, pieces = base.commit, []
        for number in range(base.commit + 1, len(self.commits) + 1):
            if base.chain is not None and self.commits[number - 1].chain == base.chain:
                pieces.append((start, number - 1))
                start = number
        return [*pieces, (start, len(self.commits))]

    def last_touch(self, spans, store, path):
        numbers = [number for start, end in spans for number in range(start + 1, end + 1)]
        return next((number for number in reversed(numbers) if self.commits[number - 1].touches(store, path)), None)

    def difference(self, spans, store, path):
        """The kind and the commit of the first span over which a path is not unchanged (PathClash, `difference`). A path that differs was touched."""
        for span in spans:
            commit = self.last_touch([span], store, path)
            if commit is not None:
                was, now = (bool(self.rows_at(store, number, path)) for number in span)
                if was or now:
                    return path, kind_by(was, now), commit
        return None

    def parent_clash(self, base, spans, earlier, op):
        for depth in range(1, len(op.path)):
            path = op.path[:depth]
            was_set = any(it.store == op.store and it.sets(path) for it in earlier)
            if base.trees[op.store].cell(path) is not None and not self.trees[op.store].has(path) and not was_set:
                return path, "deleted", self.last_touch(spans, op.store, path) or 0
        return None

    def leaf_clash(self, base, spans, op):
        for path, cell in op.rows:
            was, now = base.trees[op.store].cell(path), self.trees[op.store].cell(path)
            if cell != MARK and was != now and self.last_touch(spans, op.store, path) is not None:
                return path, kind_by(was is not None, now is not None), self.last_touch(spans, op.store, path)
        return None

    def op_clash(self, base, spans, earlier, op):
        covered = is_covered(earlier, op.store, op.path)
        found = self.parent_clash(base, spans, earlier, op) if op.needs_parents() else None
        if found is None and op.checks_path() and not covered:
            found = self.difference(spans, op.store, op.path)
        if found is None and op.act == "merge" and self.rules == 2 and not covered:
            found = self.leaf_clash(base, spans, op)
        return found

    def read_clash(self, spans, earlier, op):
        return self.difference(spans, op.store, op.path) if op.act == "read" and not is_covered(earlier, op.store, op.path) else None

    def clash(self, base, ops):
        """The first conflict of the writes, else the first of the reads: its store, path, kind and commit."""
        spans = self.spans(base)
        tests = (lambda at: self.op_clash(base, spans, ops[:at], ops[at]), lambda at: self.read_clash(spans, ops[:at], ops[at]))
        for test in tests:
            for at, op in enumerate(ops):
                found = test(at)
                if found is not None:
                    return op.store, *found
        return None


def kind_by(was, now):
    return "created" if not was else "changed" if now else "deleted"


class Sent:
    """A submission; when it is decided its base and operations are dropped."""

    def __init__(self, base, ops):
        self.domain, self.chain, self.base, self.ops = base.domain, base.chain, base, ops

    def view(self):
        return {s: applied(self.base.trees[s], s, self.ops) for s in STORES}


class Chain:
    """Its domain, whether it is closed, its last transaction, its last receipt, and the receipt that made it fail."""

    def __init__(self, domain):
        self.domain, self.closed, self.begun, self.receipt, self.failed = domain, False, None, None, None


class Listening:
    def __init__(self, client, domain, store, path, version):
        self.client, self.domain, self.store, self.path, self.version, self.removed = client, domain, store, path, version, False


class Broker:
    def __init__(self, domains):
        self.domains, self.version = domains, 0
        self.sents, self.outcomes, self.chains, self.listeners, self.marks = [], [], [], [], set()
        self.judges, self.whole = {}, {}  # by domain and store: the judge of a table, and the last tree in which it found no breach
        self.router, self.notes, self.mounts = Router(domains[0].tables[-1].full_name), Notes(), Mounts(len(domains))

    def last(self, domain):
        """The table of the version for the report."""
        return self.domains[domain].tables[-1]

    def live(self, domain):
        if not self.mounts.is_live(domain):
            raise Refused(f"no-domain {domain}")
        return self.domains[domain]

    # -- transactions and chains (History, `newest_base`, `chained_base`, `chain_refusal`)

    def newest_base(self, number, chain):
        domain = self.domains[number]
        return Base(number, len(domain.commits), chain, domain.trees)

    def begin(self, domain):
        self.live(domain)
        return self.newest_base(domain, None)

    def open_chain(self, domain):
        self.live(domain)
        self.chains.append(Chain(domain))
        return len(self.chains)

    def chain_begin(self, number):
        """The base, and the pending receipt that it builds on, or None."""
        chain = self.chains[number - 1]
        if chain.closed:
            raise Refused("chain-closed")
        if chain.failed is not None:
            raise Refused(f"chain-failed {chain.failed}")
        if chain.begun is not None and not chain.begun.spent:
            raise Refused("previous-open")
        self.live(chain.domain)
        pending = chain.receipt if chain.receipt is not None and chain.receipt > len(self.outcomes) else None
        if pending is None:
            chain.begun = self.newest_base(chain.domain, number)
        else:
            sent = self.sents[pending - 1]
            chain.begun = Base(sent.domain, sent.base.commit, number, sent.view())
        return chain.begun, pending

    def close_chain(self, number):
        if self.chains[number - 1].closed:
            raise Refused("chain-closed")
        self.chains[number - 1].closed = True

    def submit(self, base, ops):
        if len(self.sents) - len(self.outcomes) >= MOST_PENDING:
            raise Refused("pipeline-full")
        if base.spent:
            raise Refused("tx-spent")
        base.spent = True
        self.sents.append(Sent(base, ops))
        if base.chain is not None:
            self.chains[base.chain - 1].receipt = len(self.sents)
        return len(self.sents)

    # -- decisions (History, `outcome`, `decide_next`; Outcome, `decide`)

    def breach(self, number, store, table, tree):
        key = (number, store)
        if key not in self.judges or self.judges[key].table is not table:
            self.judges[key], self.whole[key] = Judge(table, store), None
        found = None if self.whole[key] is tree else self.judges[key].breach(tree)
        if found is None:
            self.whole[key] = tree
        return found

    def decide(self, sent):
        """The outcome of a submission as text; if it is done its domain has one more commit."""
        domain, last = self.domains[sent.domain], self.last(sent.domain)
        failed = self.chains[sent.chain - 1].failed if sent.chain is not None else None
        if failed is not None:
            return f"chain-failed {failed}"
        if not self.mounts.is_live(sent.domain):
            return f"unmounted {sent.domain}"
        clash = domain.clash(sent.base, sent.ops)
        if clash is not None:
            store, path, kind, commit = clash
            return f"conflict {store} {quoted(written(last, path))} {kind} {commit}"
        after = {s: applied(domain.trees[s], s, sent.ops) for s in STORES}
        for store in STORES:
            breach = self.breach(sent.domain, store, domain.table(self.version), after[store])
            if breach is not None:
                return f"invalid {store} {breach_text(last, breach)}"
        domain.commits.append(Commit(domain.trees, after, sent.ops, sent.chain))
        domain.trees = after
        return f"done {len(domain.commits)}"

    def decide_front(self):
        sent = self.sents[len(self.outcomes)]
        self.outcomes.append(self.decide(sent))
        if not self.outcomes[-1].startswith("done ") and sent.chain is not None and self.chains[sent.chain - 1].failed is None:
            self.chains[sent.chain - 1].failed = len(self.outcomes)
        sent.base = sent.ops = None

    def settle(self, receipt):
        while len(self.outcomes) < receipt:
            self.decide_front()
        return self.outcomes[receipt - 1]

    def pump(self):
        if len(self.outcomes) == len(self.sents):
            return "nothing"
        self.decide_front()
        return f"decided {len(self.outcomes)} {self.outcomes[-1]}"

    # -- listeners (History, `listening`, `batch_of`; `sal_rows` Batches, Kinds)

    def listen(self, client, number, store, path):
        domain = self.live(number)
        if sum(not it.removed for it in self.listeners) >= MOST_LISTENERS:
            raise Refused("too-many-listeners")
        self.listeners.append(Listening(client, number, store, path, len(domain.commits)))
        return len(self.listeners), len(domain.commits), domain.trees[store].under(path)

    def rows_text(self, domain, path, rows):
        return "absent" if path and not rows else compact(write_data(self.last(domain), path, rows))

    def listener(self, client, number):
        one = self.listeners[number - 1]
        if one.client != client or one.removed:
            raise Refused(f"no-listener {number}")
        return one

    def take(self, client, number):
        one = self.listener(client, number)
        domain, start = self.domains[one.domain], one.version
        rows, parts = domain.rows_at(one.store, start, one.path), []
        for commit in range(start + 1, len(domain.commits) + 1):
            changes = domain.commits[commit - 1].changes_under(one.store, one.path)
            before = bool(rows), rows.get(one.path)
            rows.update((path, cell) for path, _, cell in changes)
            for path, _, cell in changes:
                if cell is None:
                    del rows[path]
            if changes:
                parts.append([commit, self.kind_of(one, before, (bool(rows), rows.get(one.path))), [self.change_data(one.domain, it) for it in changes]])
        one.version = len(domain.commits)
        return start, one.version, parts

    def kind_of(self, one, before, after):
        """How the node at the listener's path changed: by its cell if it has a row itself, else by whether it is present."""
        (was_there, was), (is_there, now) = before, after
        if not has_own_row(self.last(one.domain), one.path):
            return "APPEARED" if not was_there else "SUBTREE_MODIFIED" if is_there else "DISAPPEARED"
        return "SUBTREE_MODIFIED" if was == now else "DELETE" if now is None else "WRITE"

    def change_data(self, domain, change):
        table, (path, *cells) = self.last(domain), change
        data = [None if it is None else {} if it == MARK else json_of(table, table.nodes[path[-1][1]], it) for it in cells]
        return [written(table, path), *data]

    def unlisten(self, client, number):
        self.listener(client, number).removed = True

    def mirrored(self, number, version):
        """The rows at the path of a listener at a version (`sal_script` Play, `mirrored`)."""
        one = self.listeners[number - 1]
        rows = sorted(self.domains[one.domain].rows_at(one.store, version, one.path).items())
        return self.rows_text(one.domain, one.path, rows)

    # -- upgrades (History, `upgrade_refusal`)

    def upgrade(self, version):
        if version != self.version + 1:
            raise Refused(f"wrong-version {self.version}")
        table = self.domains[0].tables[version]
        for store in STORES:
            breach = self.breach(0, store, table, self.domains[0].trees[store])
            if breach is not None:
                raise Refused(f"upgrade-breach {store} {breach_text(self.last(0), breach)}")
        self.version = version


def opening(config, operational):
    return dict(zip(STORES, (Tree(*zip(*rows)) if rows else Tree() for rows in (config, operational))))
