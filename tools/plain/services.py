"""RPCs, notifications and mounts, each with its own calls (`sal_rpc` Routing, `sal_note` Queues, `sal_mount` Mounts)."""
from . import Refused

MOST_WAITING = 64


class Request:
    def __init__(self, number, by, owner, rpc, context, rows):
        self.number, self.by, self.owner, self.rpc, self.context, self.input = number, by, owner, rpc, context, rows
        self.handed, self.output = False, None


class Router:
    """The provider of each RPC and context, and the requests, by their ids from 1 on."""

    def __init__(self, name_of):
        self.name_of, self.providers, self.requests = name_of, {}, []

    def provide(self, client, rpc, context):
        if (rpc, context) in self.providers:
            raise Refused(f"provider-taken {self.name_of(rpc)}")
        self.providers[rpc, context] = client

    def withdraw(self, client, rpc, context):
        if self.providers.get((rpc, context)) != client:
            raise Refused(f"no-provider {self.name_of(rpc)}")
        del self.providers[rpc, context]

    def invoke(self, client, rpc, context, rows):
        owner = self.providers.get((rpc, context), self.providers.get((rpc, None)))
        if owner is None:
            raise Refused(f"no-provider {self.name_of(rpc)}")
        self.requests.append(Request(len(self.requests) + 1, client, owner, rpc, context, rows))
        return len(self.requests)

    def next_call(self, client):
        """The first request to the client that was not delivered yet."""
        one = next((it for it in self.requests if it.owner == client and not it.handed), None)
        if one is not None:
            one.handed = True
        return one

    def answer(self, client, one, rows):
        if one.owner != client or one.output is not None:
            raise Refused(f"no-call {one.number}")
        one.output = rows

    def collect(self, client, number):
        one = self.requests[number - 1]
        if one.by != client:
            raise Refused(f"no-call {number}")
        return one


class Notes:
    def __init__(self):
        self.subscribers, self.queues = {}, {}

    def subscribe(self, client, note):
        self.subscribers.setdefault(note, set()).add(client)

    def offer(self, note, rows):
        """Adds a notification to each subscriber's queue, or to none if one is full; the refusal names the first such client."""
        clients = sorted(self.subscribers.get(note, ()))
        full = next((it for it in clients if len(self.queues.get(it, ())) >= MOST_WAITING), None)
        if full is not None:
            raise Refused(f"note-rejected {full}")
        for client in clients:
            self.queues.setdefault(client, []).append((note, rows))
        return len(clients)

    def take(self, client):
        return self.queues.pop(client, [])


class Mounts:
    """The paths of all devices that were ever mounted, and the unmounted ones. Domain 0 is always mounted."""

    def __init__(self, domains):
        self.domains, self.paths, self.unmounted = domains, {}, set()

    def is_live(self, domain):
        return domain == 0 or domain in self.paths and domain not in self.unmounted

    def mount_at(self, path):
        return next((it for it, at in self.paths.items() if at == path and self.is_live(it)), None)

    def mount(self, device, path):
        if not 0 < device < self.domains:
            raise Refused(f"no-domain {device}")
        if device in self.paths:
            raise Refused(f"device-used {device}")
        if self.mount_at(path) is not None:
            raise Refused(f"mount-taken {self.mount_at(path)}")
        self.paths[device] = path

    def unmount(self, domain):
        if domain == 0 or not self.is_live(domain):
            raise Refused(f"no-domain {domain}")
        self.unmounted.add(domain)
