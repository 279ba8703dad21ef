"""A small controller: what docs/EMBEDDING.md shows, in the order of that page. It prints embed/controller.txt."""
import os
import re
import sys

import mdsal

NET = """module net { namespace 'urn:net'; prefix n;
  container net { leaf name { type string; } list node { key id; leaf id { type string; } } }
  rpc restart { input { leaf node { type string; } } output { leaf ok { type boolean; } } }
  notification alarm { leaf text { type string; } } }"""
SWITCH = "module switch { namespace 'urn:switch'; prefix s; container switch { leaf speed { type uint32; } } }"
MORE = "module more { namespace 'urn:more'; prefix m; leaf text { type string; } }"
SCRIPT = {"modules": [NET], "rules": 2, "devices": [{"modules": [SWITCH], "config": {"switch:switch": {"speed": 10}}}]}
APP, SERVICE, NODE = 0, 1, "/net:net/node[id='s1']"


def react(broker: mdsal.Broker) -> None:
    """A client listens, another one changes the tree."""
    broker.call(SERVICE, ["listen", 0, 0, "config", "/net:net"])
    broker.update(lambda t: t.put("config", "/net:net/name", "lab"), client=APP)
    for batch in broker.changes(SERVICE):
        for part in batch.parts:
            for change in part.changes:
                print(part.commit, part.kind, change.path, change.before, change.after)


def answer(broker: mdsal.Broker) -> None:
    """A client calls an RPC, its provider answers; then it is told of an alarm."""
    broker.call(SERVICE, ["provide", "net:restart", None])
    broker.call(APP, ["invoke", 0, "net:restart", None, {"node": "s1"}])
    for request in broker.requests(SERVICE):
        broker.call(SERVICE, ["answer", 0, {"ok": request.input["node"] == "s1"}])
    print(broker.call(APP, ["collect", 0]).value)
    broker.call(APP, ["subscribe", "net:alarm"])
    broker.call(SERVICE, ["offer", "net:alarm", {"text": "hot"}])
    print([*broker.notifications(APP)])


def connect(broker: mdsal.Broker) -> None:
    """A device is mounted: it is domain 1, with a tree of its own."""
    broker.update(lambda t: t.put("config", NODE, {"id": "s1"}), client=APP)
    broker.call(SERVICE, ["mount", 1, NODE])
    broker.update(lambda t: t.put("config", "/switch:switch/speed", 100), client=SERVICE, domain=1)
    print(broker.update(lambda t: t.read("config", "/switch:switch"), client=APP, domain=1))


def reconnect(broker: mdsal.Broker) -> None:
    """A device mounts once an epoch: when it comes back, it needs the next one."""
    broker.call(SERVICE, ["unmount", 1])
    try:
        broker.call(SERVICE, ["mount", 1, NODE])
    except mdsal.refusals.DeviceUsed:
        broker.epoch(broker.numbers)
        broker.call(SERVICE, ["mount", 1, NODE])
    print(broker.update(lambda t: t.read("config", "/switch:switch"), client=APP, domain=1))


def keep(broker: mdsal.Broker, path: str, sent: list[int]) -> list[int]:
    """Appends the frames of each domain above these numbers to its file, and returns the numbers up to which the files have them."""
    for domain in range(broker.domains):
        frames = broker.frames(sent[domain], domain)
        with open(f"{path}.{domain}", "ab") as file:
            file.write(frames)
            file.flush()
            os.fsync(file.fileno())
    return broker.numbers


def restarted(path: str) -> mdsal.Broker:
    """The broker of the files: it goes on with the last frame of each."""
    streams = []
    for domain in range(1 + len(SCRIPT["devices"])):
        with open(f"{path}.{domain}", "rb") as file:
            streams.append(file.read())
    firsts = [int(re.match(rb'\d{8}\n{"commit":(\d+)', frames)[1]) for frames in streams]
    standby = mdsal.StandBy(SCRIPT, firsts)
    for domain, frames in enumerate(streams):
        standby.feed(frames, domain)
    return standby.lead(0)


def renewed(broker: mdsal.Broker) -> mdsal.Broker:
    """The next epoch has one more device, and one more model behind an upgrade."""
    more = {**SCRIPT, "upgrades": [[MORE]], "devices": [*SCRIPT["devices"], {"modules": [SWITCH]}]}
    broker = broker.renew(more, broker.numbers)
    broker.call(APP, ["upgrade", 1])
    broker.update(lambda t: t.put("config", "/more:text", "new"), client=APP)
    return broker


def main() -> None:
    path = sys.argv[1]
    with mdsal.Broker(SCRIPT) as broker:
        for domain in range(broker.domains):
            with open(f"{path}.{domain}", "wb") as file:
                file.write(broker.snapshot(domain))
        sent = broker.numbers
        react(broker)
        answer(broker)
        connect(broker)
        sent = keep(broker, path, sent)
        reconnect(broker)
        broker.update(lambda t: t.put("config", "/net:net/name", "hall"), client=APP)
        sent = keep(broker, path, sent)
        print(sent, broker.left)
    with restarted(path) as broker:
        print(broker.numbers, broker.left, broker.look("config", "/net:net"), broker.look("config", "/switch:switch", domain=1))
        broker = renewed(broker)
        print(broker.domains, broker.look("config", "/net:net"), broker.look("config", "/switch:switch", domain=2))
        broker.close()


if __name__ == "__main__":
    main()
