"""The tests of tools/embed for the Python module and for an installed library, beside those of embedded.py: each takes the library's folder and a folder
for its output."""
import os
import random
import re
import shutil
import subprocess
import sys

from embedded import EMBED, SANITIZERS, Absent, Differs, compiled, example, library, needed, ran, same, sanitizing
from embedded_streams import raises
from kit import ROOT


# ---- the controller of docs/EMBEDDING.md

def controller(folder, room, is_wrong=False):
    """Runs the program whose lines docs/EMBEDDING.md shows, and looks for them in it."""
    env = {**os.environ, "MDSAL_LIBRARY": f"{folder}/libmdsal.so", "PYTHONDONTWRITEBYTECODE": "1"}
    told = ran(["python3", f"{EMBED}/python/controller.py", f"{room}/controller-frames"], env=env)
    with open(f"{EMBED}/controller.txt", encoding="utf-8") as file:
        same("what embed/python/controller.py prints", told, file.read().replace("hall", "hull") if is_wrong else file.read())
    with open(f"{EMBED}/python/controller.py", encoding="utf-8") as file:
        lines = {it.strip() for it in file}
    with open(f"{ROOT}/docs/EMBEDDING.md", encoding="utf-8") as file:
        shown = [it.strip() for block in re.findall(r"```python\n(.*?)```", file.read(), re.S) for it in block.splitlines() if it.strip()]
    absent = [it for it in shown if re.sub(r"\s+#.*", "", it) not in {re.sub(r"\s+#.*", "", line) for line in lines}]
    if absent or not shown:
        raise Differs(f"docs/EMBEDDING.md shows {absent}, which embed/python/controller.py does not have")
    return f"Python: the controller prints what embed/controller.txt has, and has the {len(shown)} lines of docs/EMBEDDING.md"


# ---- an installed library

def installed(prefix, room, is_wrong=False):
    """Runs the example in C by pkg-config and that in Python by pip, over the library below the prefix."""
    needed("pkg-config")
    env = {**os.environ, "PKG_CONFIG_PATH": f"{prefix}/lib/pkgconfig", "LD_LIBRARY_PATH": f"{prefix}/lib", "PYTHONDONTWRITEBYTECODE": "1"}
    words = ran(["pkg-config", "--cflags", "--libs", "mdsal"], env=env).split()
    ran(["gcc", "-std=c11", f"{EMBED}/c/two_clients.c", *words, "-o", f"{room}/by-pkg-config"])
    os.rename(f"{prefix}/lib/libmdsal.so", f"{room}/libmdsal.so.away")  # a program needs the soname alone
    example("installed C", [f"{room}/by-pkg-config", f"{EMBED}/two_clients.json"], is_wrong, env=env)
    shutil.copytree(f"{EMBED}/python", f"{room}/python", ignore=shutil.ignore_patterns("__pycache__"))
    pip = [sys.executable, "-m", "pip", "install", "--quiet", "--no-index", "--disable-pip-version-check", "--root-user-action=ignore"]
    if subprocess.run([sys.executable, "-m", "pip", "--version"], capture_output=True).returncode:
        raise Absent("there is no pip")
    ran([*pip, "--target", f"{room}/site", f"{room}/python"], env=env)
    env = {it: text for it, text in env.items() if it != "MDSAL_LIBRARY"} | {"PYTHONPATH": f"{room}/site"}
    shutil.copy(f"{EMBED}/python/two_clients.py", f"{room}/two_clients.py")
    example("installed Python", [sys.executable, f"{room}/two_clients.py", f"{EMBED}/two_clients.json"], is_wrong, env=env)
    return "the example in C and in Python, over an installed library: by pkg-config, by the soname, by pip without a network"


# ---- what waits for a client

def waits(folder, room, flags=()):
    ran([compiled("waits", folder, room, ("-O2", *flags))])
    return "C: what waits for a client, bit by bit, before and after the step that takes it"


def waits_sanitized(folder, room, flags=()):
    compiler = sanitizing(room)
    ran([compiled("waits", folder, room, (*SANITIZERS, *flags), compiler)])
    return f"C: the same under the sanitizers of {compiler}: no error, no leak"


POLLED = """module p { namespace 'urn:p'; prefix p; leaf a { type string; } leaf b { type string; }
  rpc go { input { leaf x { type string; } } output { leaf y { type string; } } } notification hot { leaf t { type string; } } }"""


def polled(folder, room, is_wrong=False):
    """Iterators over what waits: each takes all that is there, and a poll in vain adds nothing to the log."""
    mdsal = library(folder)
    with mdsal.Broker({"modules": [POLLED]}) as broker:
        broker.steps(1, [["listen", 7, 0, "config", "/p:a"], ["provide", "p:go", None], ["subscribe", "p:hot"]])
        left = broker.left
        for _ in range(3):
            same("polls in vain", [[*broker.changes(1, 7)], [*broker.requests(1)], [*broker.notifications(1)], broker.waits(1, 7)], [[], [], [], 0])
        same("the log after polls in vain", broker.left, left)
        for step in (["put", 0, "config", "/p:a", "x"], ["put", 0, "config", "/p:b", "y"], ["delete", 0, "config", "/p:a"]):
            broker.steps(0, [["begin", 0, 0, "rw"], step, ["submit", 0], ["settle", 0]])
        same("a flag", (broker.waits(1, 7), broker.waits(0)), (mdsal.Waiting.CHANGES, mdsal.Waiting.DECIDED | is_wrong))
        seen = [(change.before, change.after) for it in broker.changes(1, 7) for part in it.parts for change in part.changes]
        same("the changes", (seen, [*broker.changes(1, 7)]), ([(None, "x"), ("x", None)], []))
        for text in ("1", "2"):
            broker.call(0, ["invoke", int(text), "p:go", None, {"x": text}])
            broker.call(0, ["offer", "p:hot", {"t": text}])
        same("flags", (broker.waits(1, 7), broker.waits(0, 1)), (mdsal.Waiting.REQUEST | mdsal.Waiting.NOTES, 0))
        for request in broker.requests(1, 3):
            broker.call(1, ["answer", 3, {"y": request.input["x"] * 2}])
        same("the answers", [(broker.waits(0, it), broker.call(0, ["collect", it]).value) for it in (1, 2)], [(mdsal.Waiting.ANSWER, {"y": it}) for it in ("11", "22")])
        same("the notifications", [*broker.notifications(1)], [("p:hot", {"t": "1"}), ("p:hot", {"t": "2"})])
        same("at the end", (broker.waits(1, 7), broker.waits(65535, 255)), (0, 0))
        for words in ((-1, 0), (1 << 32, 0), (0, 256), (0, -1)):
            raises(OverflowError, broker.waits, *words)
    same("of a closed broker", broker.waits(1, 7), 0)
    return "Python: iterators over changes, requests and notifications; polls in vain add nothing to the log"


def random_step(dice):
    """Returns a client and one of the steps that change what waits."""
    slot, text = dice.randrange(2), dice.choice("xyz")
    return dice.randrange(3), dice.choice((
        ["begin", slot, 0, "rw"], ["put", slot, "config", f"/p:{dice.choice('ab')}", text], ["submit", slot], ["submit", slot], ["settle", slot], ["pump"],
        ["listen", slot, 0, "config", dice.choice(["/p:a", "/p:b"])], ["take", slot], ["unlisten", slot], ["provide", "p:go", None], ["withdraw", "p:go", None],
        ["invoke", slot, "p:go", None, {"x": text}], ["next-call", slot], ["answer", slot, {"y": text}], ["collect", slot],
        ["subscribe", "p:hot"], ["offer", "p:hot", {"t": text}], ["take-notes"],
    ))


def flags_by_steps(mdsal, made, receipts, client, slot):
    """What waits for the client, by the steps that take it: each is made once by another broker, behind the same steps."""
    def replies(*steps):
        with mdsal.Broker({"modules": [POLLED]}) as other:
            for it in made:
                other.step(*it)
            return other.steps(client, steps)

    batch, flags = replies(["take", slot])[0].split(" "), mdsal.Waiting
    undecided = [f"decided {receipts.get((client, slot))} " in it for it in replies(*[["pump"]] * len(receipts))]
    given = {
        flags.REQUEST: replies(["next-call", slot])[0].startswith("request "), flags.NOTES: replies(["take-notes"]) != ["notes []"],
        flags.ANSWER: replies(["collect", slot])[0].startswith("output "), flags.DECIDED: (client, slot) in receipts and not any(undecided),
        flags.CHANGES: batch[0] == "batch" and int(batch[1]) < int(batch[2]),
    }
    return sum(flag for flag, is_set in given.items() if is_set)


def polled_as_made(folder, room, is_wrong=False):
    """Behind random steps each flag is what the step then gives."""
    mdsal, dice, made, receipts, seen = library(folder), random.Random(1), [], {}, set()
    with mdsal.Broker({"modules": [POLLED]}) as broker:
        for _ in range(160):
            client, step = random_step(dice)
            told = broker.step(client, step)
            made.append((client, step))
            if told.startswith("receipt "):
                receipts[client, step[1]] = int(told.split(" ")[1])
            for slot in range(2):
                wanted = flags_by_steps(mdsal, made, receipts, client, slot)
                same(f"what waits for client {client} in slot {slot} behind {len(made)} steps", int(broker.waits(client, slot)), wanted ^ is_wrong)
                seen.add(wanted)
    return f"Python: what waits is what the steps give, behind each of {len(made)} random ones, in {len(seen)} combinations"


# ---- replies with fields

def typed_replies(r, x):
    """Yields steps of clients with the replies that docs/FORMATS.md gives, as objects; a refusal as its exception."""
    box, a = ["config", "/plain:box"], "/plain:box/a"
    yield 0, ["listen", 0, 0, *box], r.Listening(1, 0, None)
    yield 0, ["begin", 0, 0, "rw"], r.Begun(0)
    yield 0, ["read", 0, "config", a], r.Data(None)
    yield 0, ["put", 0, "config", a, 5], x.BadData
    yield 0, ["put", 0, "config", "/plain:nothing", 5], x.BadPath
    yield 0, ["put", 0, "config", "/", {}], x.RootPath
    yield 0, ["put", 0, "config", a, 'x "y'], r.Ok()
    yield 1, ["begin", 0, 0, "rw"], r.Begun(0)
    yield 1, ["put", 0, "config", a, "z"], r.Ok()
    yield 0, ["exists", 0, "config", a], r.Truth(True)
    yield 0, ["read", 0, "config", a], r.Data('x "y')
    yield 0, ["submit", 0], r.Number(1)
    yield 0, ["submit", 0], x.EmptySlot
    yield 1, ["submit", 0], r.Number(2)
    yield 2, ["pump"], r.Decided(1, r.Done(1))
    yield 1, ["settle", 0], r.Conflict("config", a, "created", 1)
    yield 2, ["pump"], r.Nothing()
    yield 0, ["take", 0], r.Batch(0, 1, (r.Part(1, "APPEARED", (r.Change(a, None, 'x "y'),)),))
    yield 0, ["mirror", 0], r.Listening(None, 1, {"a": 'x "y'})
    yield 2, ["begin", 0, 0, "ro"], r.Begun(1)
    yield 2, ["put", 0, "config", a, "w"], x.ReadOnly
    yield 2, ["begin", 0, 7, "ro"], x.NoDomain
    yield 2, ["mount", 1, a], x.NoDomain
    yield 2, ["mount-at", a], r.Nothing()
    yield 2, ["chain", 0, 0], r.Number(1)
    yield 2, ["mark", 3], r.Ok()
    yield 2, ["after", 3], r.Truth(True)
    yield 2, ["after", 4], r.Truth(False)
    yield 2, ["take-notes"], r.Notes(())
    yield 2, ["next-call", 0], r.Nothing()
    yield 2, ["upgrade", 1], x.NoUpgrade


def typed(folder, room, is_wrong=False):
    mdsal, count = library(folder), 0
    with mdsal.Broker("{}") as broker:
        for client, step, wanted in typed_replies(mdsal.replies, mdsal.refusals):
            wanted = mdsal.replies.Begun(1) if is_wrong and wanted == mdsal.replies.Begun(0) else wanted
            try:
                told = broker.call(client, step)
            except mdsal.Refused as it:
                told = type(it)
            if told != wanted:
                raise Differs(f"the step {step} has the reply {told}, and should have {wanted}")
            count += 1
        count += updated(mdsal, broker)
        batch(mdsal, broker)
    return f"Python: {count} replies with their fields, refusals as exceptions, updates after a conflict"


def batch(mdsal, broker):
    """Steps in one call: all replies, or those before the one that is not made."""
    same("a batch", broker.steps(9, [["mark", 9], '["after",9]']), ["ok", "found"])
    try:
        told = broker.steps(9, [["after", 9], ["no-step"], ["mark", 9]])
    except mdsal.BadStep as why:
        told = why.replies
    same("a batch with a step that is none", told, ["found"])


def updated(mdsal, broker):
    """An update begins again after a conflict; one that raises is cancelled; one that is refused says so."""
    seen, counter = [], "/plain:box/b"

    def add(transaction):
        seen.append(transaction.read("config", counter))
        if len(seen) == 1:  # another client is first
            broker.update(lambda other: other.put("config", counter, "7"), client=3)
        transaction.put("config", counter, str(int(seen[-1] or 0) + 1))
        return len(seen)

    if broker.update(add) != 2 or seen != [None, "7"] or broker.update(lambda it: it.read("config", counter)) != "8":
        raise Differs(f"an update after a conflict saw {seen}")
    try:
        broker.update(lambda it: it.put("config", "/plain:box/c", 5))
        raise Differs("a refused put is no exception")
    except mdsal.refusals.BadData:
        if not broker.step(0, ["submit", 0]).startswith("refused empty-slot"):
            raise Differs("a transaction that raised is not cancelled") from None
    return 4
