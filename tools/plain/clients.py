"""The clients of a script, and the reply to each step (`sal_script` Play, Services, Messages, CheckedReads).

Each step has a method with the name of its keyword. The method of a local step returns the reply. The method of a shared step is a generator, which
waits for its turn at `yield`: the code before it is the client's own, the code after it is the call.
"""
from . import Refused
from .data import compact, quoted, read_data, write_data
from .paths import read_path, written
from .rows import Op, applied, recorded
from .rules import ParentMissing, refuse


class Open:
    """A client's transaction: its base, the table of its version, its mode, its operations, and the tree of each store as it sees it."""

    def __init__(self, base, table, mode):
        self.base, self.table, self.mode, self.ops, self.view = base, table, mode, [], dict(base.trees)

    def look(self, store, path):
        self.ops = recorded(self.mode, store, path, self.ops)


def held(slots, slot):
    if slot not in slots:
        raise Refused("empty-slot")
    return slots[slot]


class Client:
    def __init__(self, number, steps, broker, checked):
        self.number, self.steps, self.broker, self.checked, self.replies = number, steps, broker, checked, []
        self.transactions, self.receipts, self.chains, self.listeners, self.invoked, self.handed = {}, {}, {}, {}, {}, {}

    # -- the play (Play, `arrive`, `go`)

    def arrive(self):
        """Answers local steps up to the next shared call, and returns that, or None at the end."""
        while len(self.replies) < len(self.steps):
            word, *given = self.steps[len(self.replies)]
            try:
                met = getattr(self, "on_" + word.replace("-", "_"))(*given)
                if not isinstance(met, str):
                    next(met)
                    return met
            except Refused as refusal:
                met = f"refused {refusal}"
            self.replies.append(met)
        return None

    def go(self):
        """Makes the next shared call, if there is one."""
        call = self.arrive()
        if call is None:
            return False
        try:
            next(call)
        except StopIteration as end:
            self.replies.append(end.value)
        except Refused as refusal:
            self.replies.append(f"refused {refusal}")
        return True

    # -- transactions

    def keep(self, slot, base, mode):
        """A new transaction reads by the present version of its domain's schema (Play, `keep_begun`; CheckedReads, `checked_mode`)."""
        table = self.broker.domains[base.domain].table(self.broker.version)
        self.transactions[slot] = Open(base, table, "checked" if mode == "rw" and self.checked else mode)

    def on_begin(self, slot, domain, mode):
        yield
        base = self.broker.begin(domain)
        self.keep(slot, base, mode)
        return f"begun {base.commit}"

    def write(self, act, slot, store, text, *value):
        """The first refusal counts: of the slot, the mode, the path, the value, and then of the transaction (Play, `write`)."""
        tx = held(self.transactions, slot)
        if tx.mode == "ro":
            raise Refused("read-only")
        path = read_path(tx.table, text)
        op = Op(act, store, path, read_data(tx.table, path, *value) if value else [])
        try:
            refuse(tx.table, tx.view[store], op)
        except ParentMissing as missing:
            tx.look(store, missing.path)
            raise
        tx.ops = [*tx.ops, op]
        tx.view[store] = applied(tx.view[store], store, [op])
        return "ok"

    def on_put(self, slot, store, text, value):
        return self.write("put", slot, store, text, value)

    def on_merge(self, slot, store, text, value):
        return self.write("merge", slot, store, text, value)

    def on_delete(self, slot, store, text):
        return self.write("delete", slot, store, text)

    def look(self, slot, store, text):
        """The transaction and the path of a read (Play, `look`)."""
        tx = held(self.transactions, slot)
        path = read_path(tx.table, text)
        if tx.mode == "wo":
            raise Refused("write-only")
        tx.look(store, path)
        return tx, path

    def on_read(self, slot, store, text):
        tx, path = self.look(slot, store, text)
        rows = tx.view[store].under(path)
        return "absent" if path and not rows else "data " + compact(write_data(self.broker.last(tx.base.domain), path, rows))

    def on_exists(self, slot, store, text):
        tx, path = self.look(slot, store, text)
        return "true" if tx.view[store].has(path) else "false"

    def on_submit(self, slot):
        tx = held(self.transactions, slot)
        if tx.mode == "ro":
            raise Refused("read-only")
        yield
        self.receipts[slot] = self.broker.submit(tx.base, tx.ops)
        del self.transactions[slot]
        return f"receipt {self.receipts[slot]}"

    def on_cancel(self, slot):
        tx = held(self.transactions, slot)
        yield
        tx.base.spent = True
        del self.transactions[slot]
        return "ok"

    def on_settle(self, slot):
        receipt = held(self.receipts, slot)
        yield
        return self.broker.settle(receipt)

    def on_pump(self):
        yield
        return self.broker.pump()

    # -- chains

    def on_chain(self, slot, domain):
        yield
        self.chains[slot] = self.broker.open_chain(domain)
        return f"chain {self.chains[slot]}"

    def on_chain_begin(self, chain, slot, mode):
        number = held(self.chains, chain)
        yield
        base, receipt = self.broker.chain_begin(number)
        self.keep(slot, base, mode)
        return f"begun {base.commit}" + ("" if receipt is None else f" on {receipt}")

    def on_close_chain(self, chain):
        number = held(self.chains, chain)
        yield
        self.broker.close_chain(number)
        return "ok"

    # -- listeners: a slot has the listener's id and the last version that was taken

    def on_listen(self, slot, domain, store, text):
        if domain >= len(self.broker.domains):
            raise Refused("no-device")
        path = read_path(self.broker.last(domain), text)
        yield
        number, version, rows = self.broker.listen(self.number, domain, store, path)
        self.listeners[slot] = number, version
        return f"listener {number} {version} {self.broker.rows_text(domain, path, rows)}"

    def on_take(self, slot):
        number, _ = held(self.listeners, slot)
        yield
        start, end, parts = self.broker.take(self.number, number)
        self.listeners[slot] = number, end
        return f"batch {start} {end} {compact(parts)}"

    def on_unlisten(self, slot):
        number, _ = held(self.listeners, slot)
        yield
        self.broker.unlisten(self.number, number)
        return "ok"

    def on_mirror(self, slot):
        number, version = held(self.listeners, slot)
        return f"mirror {version} {self.broker.mirrored(number, version)}"

    # -- RPCs and notifications, by the last version of domain 0's schema; a name splits at its first colon (Messages)

    @property
    def table(self):
        return self.broker.last(0)

    def called(self, nodes, name):
        node = nodes.get(tuple(name.split(":", 1)))
        if node is None:
            raise Refused("unknown-name")
        return node

    def registration(self, name, context):
        return self.called(self.table.rpcs, name), None if context is None else read_path(self.table, context)

    def rows_of(self, node, value):
        return read_data(self.table, ((0, node),), value)

    def message(self, node, rows):
        return write_data(self.table, ((0, node),), rows)

    def on_provide(self, name, context):
        given = self.registration(name, context)
        yield
        self.broker.router.provide(self.number, *given)
        return "ok"

    def on_withdraw(self, name, context):
        given = self.registration(name, context)
        yield
        self.broker.router.withdraw(self.number, *given)
        return "ok"

    def on_invoke(self, slot, name, context, value):
        rpc, path = self.registration(name, context)
        rows = self.rows_of(self.table.children[rpc][0], value)
        yield
        self.invoked[slot] = self.broker.router.invoke(self.number, rpc, path, rows)
        return f"call {self.invoked[slot]}"

    def on_next_call(self, slot):
        yield
        one = self.broker.router.next_call(self.number)
        if one is None:
            return "nothing"
        self.handed[slot] = one
        context = "-" if one.context is None else quoted(written(self.table, one.context))
        rows = compact(self.message(self.table.children[one.rpc][0], one.input))
        return f"request {one.number} {self.table.full_name(one.rpc)} {context} {rows}"

    def on_answer(self, slot, value):
        one = held(self.handed, slot)
        rows = self.rows_of(self.table.children[one.rpc][1], value)
        yield
        self.broker.router.answer(self.number, one, rows)
        return "ok"

    def on_collect(self, slot):
        number = held(self.invoked, slot)
        yield
        one = self.broker.router.collect(self.number, number)
        return "nothing" if one.output is None else "output " + compact(self.message(self.table.children[one.rpc][1], one.output))

    def on_subscribe(self, name):
        note = self.called(self.table.notifications, name)
        yield
        self.broker.notes.subscribe(self.number, note)
        return "ok"

    def on_offer(self, name, value):
        note = self.called(self.table.notifications, name)
        rows = self.rows_of(note, value)
        yield
        return f"offered {self.broker.notes.offer(note, rows)}"

    def on_take_notes(self):
        yield
        waiting = self.broker.notes.take(self.number)
        return "notes " + compact([[self.table.full_name(note), self.message(note, rows)] for note, rows in waiting])

    # -- mounts, marks and upgrades

    def on_mount(self, device, text):
        path = read_path(self.table, text)
        yield
        self.broker.mounts.mount(device, path)
        return "ok"

    def on_unmount(self, domain):
        yield
        self.broker.mounts.unmount(domain)
        return "ok"

    def on_mount_at(self, text):
        path = read_path(self.table, text)
        yield
        domain = self.broker.mounts.mount_at(path)
        return "none" if domain is None else f"mount {domain}"

    def on_mark(self, number):
        yield
        self.broker.marks.add(number)
        return "ok"

    def on_after(self, number):
        yield
        return "found" if number in self.broker.marks else "late"

    def on_upgrade(self, version):
        if not 0 < version < len(self.broker.domains[0].tables):
            raise Refused("no-upgrade")
        yield
        self.broker.upgrade(version)
        return "ok"
