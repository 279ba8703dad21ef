"""Scripts, their reports in an order, and the verdict on a text (`sal_script` Script, Play, Report; `sal_order` FirstLines; `sal_verdict` Verdicts).

It assumes that `sim` accepts the script, except for its order: faults of scripts, schemas and opening trees are not checked.
"""
import json
import os
import re

from .broker import STORES, Broker, Domain, opening
from .clients import Client
from .data import compact, read_data, write_data
from .schema import versions_of

LEAFS = "".join(f" leaf {name} {{ type string; }}" for name in "abcdefgh")
PLAIN = f'module plain {{ namespace "urn:plain"; prefix p; container box {{{LEAFS} }} }}'  # the modules of a script without modules
ORDER = re.compile(rb"order((?: (?:0|[1-9][0-9]*))*)\n")


def whole_number(text):
    """A number of JSON without point and exponent; -0, and numbers that do not fit in 64 bits, become floats."""
    number = int(text)
    return number if -(2**63) <= number < 2**64 and text != "-0" else float(text)


def script_of(text):
    return json.loads(text, parse_int=whole_number)


# -- a world and its clients

def domain_of(parts, upgrades, rules):
    tables = versions_of(parts.get("modules", [PLAIN]), upgrades)
    return Domain(tables, opening(*(read_data(tables[0], (), parts.get(store, {})) for store in STORES)), rules)


def broker_of(script):
    rules = script.get("rules", 1)
    own = domain_of(script, script.get("upgrades", []), rules)
    return Broker([own, *(domain_of(it, [], rules) for it in script.get("devices", []))])


def play(script, order):
    """The broker and the clients at the end of an order, or None if it is not legal (Play, `play`)."""
    broker = broker_of(script)
    clients = [Client(number, it["steps"], broker, "reads" in script) for number, it in enumerate(script.get("clients", []))]
    if not all(number < len(clients) and clients[number].go() for number in order):
        return None
    return (broker, clients) if all(it.arrive() is None for it in clients) else None


# -- the report (Report, `report`)

def report(order, broker, clients):
    lines = ["order" + "".join(f" {number}" for number in order)]
    lines += [f"{client.number} {at} {reply}" for client in clients for at, reply in enumerate(client.replies)]
    for number, domain in enumerate(broker.domains):
        if number == 0 or number in broker.mounts.paths:
            trees = " ".join(compact(write_data(domain.tables[-1], (), domain.trees[store].under(()))) for store in STORES)
            lines.append(f"tree {number} {len(domain.commits)} {trees}")
    return "".join(line + "\n" for line in lines).encode()


# -- the verdict (Verdicts, `verdict`)

def told_order(text):
    """The order on a text's first line, or None if the line has another form (FirstLines, `told_order`)."""
    found = ORDER.match(text)
    order = [int(it) for it in found[1].split()] if found else [2**32]
    return order if all(it < 2**32 for it in order) else None


def verdict(script, text):
    given, order = script_of(script), told_order(text)
    played = None if order is None else play(given, order)
    if played is None:
        return "no 0\n"
    own = report(order, *played)
    return "yes\n" if own == text else f"no {os.path.commonprefix([own, text]).count(10)}\n"
