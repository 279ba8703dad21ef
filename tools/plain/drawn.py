"""Random scripts of the steps of the cases: the steps of all cases with the same modules, devices and opening trees are given to clients at random.

The order is random too, and is chosen while the clients are played: in each turn a random client with a shared call left makes it.
"""
import json
import random

from .clients import Client
from .report import broker_of, script_of

WORLD = ("modules", "upgrades", "config", "operational", "devices")
ONE_SLOT = "begin put merge delete read exists submit cancel settle close-chain take unlisten mirror chain listen invoke next-call answer collect".split()
SLOTS = {**dict.fromkeys(ONE_SLOT, (1,)), "chain-begin": (1, 2)}  # the places of slots in a step
INSIDE = ("put", "merge", "delete", "read", "exists")
AFTER = ("submit", "settle")
FIRST = ("mount", "provide", "subscribe", "chain", "listen", "invoke")
RARE = ("close-chain", "unlisten", "cancel", "unmount", "withdraw")


class Pool:
    """The steps of the cases of one world, by their keywords."""

    def __init__(self, world):
        self.world, self.steps = world, {}

    def add(self, script):
        for client in script.get("clients", []):
            for step in client["steps"]:
                self.steps.setdefault(step[0], []).append(step)

    def widen(self):
        """Adds steps on the same paths and domains that the cases do not have."""
        domains = sorted({step[2] for step in self.steps["begin"]})
        paths = sorted({(step[2], step[3]) for word in INSIDE for step in self.steps.get(word, ())})
        self.steps.setdefault("chain", []).extend(["chain", 0, it] for it in domains)
        self.steps.setdefault("listen", []).extend(["listen", 0, it, *at] for it in domains for at in paths)
        for word in ("read", "exists", "delete"):
            self.steps.setdefault(word, []).extend([word, 0, *at] for at in paths)
        for step in (["chain-begin", 0, 0, "rw"], ["take", 0], ["mirror", 0], ["pump"], ["cancel", 0], ["close-chain", 0], ["unlisten", 0]):
            self.steps.setdefault(step[0], []).append(step)
        self.steps.setdefault("upgrade", []).extend(["upgrade", it + 1] for it in range(len(self.world.get("upgrades", []))))

    def word(self, draw):
        """A keyword that is not of transactions; those that end something are rare."""
        words = sorted(it for it in self.steps if self.steps[it] and it not in (*INSIDE, *AFTER, "begin", "chain-begin"))
        word = draw.choice(words)
        return draw.choice(words) if word in RARE else word

    def step(self, draw, word):
        step = list(draw.choice(self.steps[word]))
        for place in SLOTS.get(word, ()):
            step[place] = draw.choice((0, 0, 1))
        if word in ("begin", "chain-begin"):
            step[-1] = draw.choice(("ro", "wo", "rw", "rw", "rw", "rw"))
        return step

    def transaction(self, draw):
        """A begin, steps inside, a submit and a settle, all of one slot; some of them are missing."""
        inside = [it for it in INSIDE if it in self.steps]
        steps = [self.step(draw, "chain-begin" if draw.random() < 0.2 else "begin")]
        steps += [self.step(draw, draw.choice(inside)) for _ in range(draw.randrange(1, 5))]
        slot = steps[0][-2] if steps[0][0] == "chain-begin" else steps[0][1]
        for step in steps[1:]:
            step[1] = slot
        return steps + [[word, slot] for word in AFTER if draw.random() < 0.85]

    def client(self, draw):
        steps = [self.step(draw, word) for word in FIRST if self.steps.get(word) and draw.random() < 0.7]
        while len(steps) < 24:
            steps += self.transaction(draw) if draw.random() < 0.6 else [self.step(draw, self.word(draw))]
        return {"steps": steps}

    def script(self, draw):
        """A script with random clients, in an order in which they can be played."""
        script = {**self.world, "clients": [self.client(draw) for _ in range(draw.randrange(2, 5))], "rules": draw.choice((1, 2))}
        if draw.random() < 0.4:
            script["reads"] = "checked"
        broker = broker_of(script)
        clients = [Client(number, it["steps"], broker, "reads" in script) for number, it in enumerate(script["clients"])]
        order, left = [], list(clients)
        while left:
            one = draw.choice(left)
            if one.go():
                order.append(one.number)
            else:
                left.remove(one)
        return {**script, "order": order}


def pools(scripts):
    """A pool for each world of these scripts that has writes."""
    found = {}
    for text in scripts:
        script = script_of(text)
        world = {key: script[key] for key in WORLD if key in script}
        found.setdefault(json.dumps(world, sort_keys=True), Pool(world)).add(script)
    good = [pool for pool in found.values() if "begin" in pool.steps and any(it in pool.steps for it in INSIDE)]
    for pool in good:
        pool.widen()
    return good


def script(worlds, seed, number):
    """A random script with its order: half of them have a world with upgrades, devices, RPCs or notifications."""
    draw = random.Random(f"{seed} {number}")
    rich = [it for it in worlds if it.world.get("upgrades") or it.world.get("devices") or "invoke" in it.steps or "offer" in it.steps]
    return draw.choice(draw.choice((worlds, rich))).script(draw)
