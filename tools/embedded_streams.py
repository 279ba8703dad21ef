"""The tests of tools/embed for frames, epochs and stand-bys, beside those of embedded.py: each takes the library's folder and a folder for its output."""
import json
import os
import re
import shutil
import subprocess
import time

from embedded import EMBED, SANITIZERS, VALGRIND, Absent, Differs, compiled, library, needed, ran, same, sanitizing

# ---- frames, epochs and a stand-by

def in_c(folder, room, flags=()):
    ran([compiled("streams", folder, room, ("-O2", *flags))])
    return "C: frames, snapshots, epochs and a stand-by, in each wrong order; a stream cut at each byte, and with each byte wrong"


def sanitized(folder, room, flags=()):
    compiler = sanitizing(room)
    ran([compiled("streams", folder, room, (*SANITIZERS, *flags), compiler)])
    return f"C: the same under the sanitizers of {compiler}: no error, no leak"


def in_valgrind(folder, room, flags=()):
    needed("valgrind")
    ran([*VALGRIND, compiled("streams", folder, room, ("-O1", "-g", *flags))])
    return "C: the same under valgrind: no error, no leak"


def wanting(folder, room, flags=()):
    wrap = "-Wl,--wrap=malloc,--wrap=realloc"
    try:
        how = ((*SANITIZERS, wrap, *flags), sanitizing(room))
    except Absent:
        how = (("-O2", wrap, *flags), "gcc")
    told = ran([compiled("failing", folder, room, *how)]).strip()
    return f"C: {told}; each was made again, and nothing was lost"


def domains(folder, room, flags=()):
    ran([compiled("domains", folder, room, ("-O2", *flags))])
    return "C: the same of a device: its frames, epochs by all numbers, a stand-by that leads with its trees, numbers that no domain has"


def domains_sanitized(folder, room, flags=()):
    compiler = sanitizing(room)
    ran([compiled("domains", folder, room, (*SANITIZERS, *flags), compiler)])
    return f"C: the same under the sanitizers of {compiler}: no error, no leak"


def framed(text):
    """A frame, as docs/FORMATS.md writes it."""
    return f"{len(text):08}\n{text}\n".encode()


OPENING = framed('{"commit":0,"config":[],"operational":[]}')
FIRST = framed('{"commit":1,"config":[[[0,1],"x"]],"operational":[]}')
SECOND = framed('{"commit":2,"config":[],"operational":[[[0,2],"y"]]}')
BOTH = framed('{"commit":2,"config":[[[0,1],"x"]],"operational":[[[0,2],"y"]]}')


def in_python(folder, room, is_wrong=False):
    mdsal = library(folder)
    with mdsal.Broker("{}") as broker, mdsal.StandBy("{}") as standby, mdsal.StandBy("{}", 2) as late:
        raises(mdsal.Empty, standby.lead)
        standby.feed(broker.snapshot())
        broker.update(lambda it: it.put("config", "/plain:box/a", "x"))
        broker.update(lambda it: it.put("operational", "/plain:box/b", "y"))
        same("the frames", broker.frames(0), FIRST + (FIRST if is_wrong else SECOND))
        same("the rest of a log", (broker.left, broker.number, broker.version), (1000000 - 6, 2, 0))
        for at in range(len(FIRST + SECOND)):
            standby.feed((FIRST + SECOND)[at : at + 1])
        late.feed(BOTH)
        same("a snapshot", (broker.snapshot(), standby.snapshot(), late.snapshot()), (BOTH, BOTH, BOTH))
        same("looks", [it.look("config", "/plain:box/a") for it in (broker, standby, late)], ["x"] * 3)
        same("absent data", [it.look("config", "/plain:box/b") for it in (broker, standby, late)], [None] * 3)
        raises(mdsal.refusals.BadPath, broker.look, "config", "/plain:no")
        raises(mdsal.NotNewest, broker.epoch, 1)
        broker.step(1, ["begin", 0, 0, "rw"]), broker.step(1, ["submit", 0])
        raises(mdsal.Pending, broker.epoch, 2)
        same("a settle", broker.call(1, ["settle", 0]), mdsal.replies.Done(3))
        broker.epoch(3)
        same("after an epoch", (broker.left, broker.number, broker.frames(3), broker.report()), (1000000, 3, b"", REPORTED))
        raises(mdsal.Gone, broker.frames, 2)
        raises(OverflowError, broker.frames, -1), raises(OverflowError, broker.epoch, 1 << 64), raises(OverflowError, late.lead, 1 << 32)
        raises(mdsal.BadVersion, late.lead, 1)
        raises(mdsal.BadStream, late.feed, FIRST)
        taken_over(mdsal, standby)
    return "Python: frames, epochs and a stand-by that leads, with their exceptions"


MORE = "module more { namespace 'urn:more'; prefix m; leaf k { type string; } }"
DEVICE = "module d { namespace 'urn:d'; prefix d; leaf n { type string; } }"


def of_devices(folder, room, is_wrong=False):
    """A broker with a device: its frames are kept, and another script goes on with one more device and one more model."""
    mdsal = library(folder)
    script = {"devices": [{"modules": [DEVICE], "config": {"d:n": "x"}}]}
    with mdsal.Broker(script) as broker:
        broker.update(lambda it: it.put("config", "/plain:box/a", "x"))
        broker.call(0, ["mount", 1, "/plain:box"])
        broker.update(lambda it: it.put("config", "/d:n", "y"), domain=1)
        changed = framed('{"commit":1,"config":[[[0],"y"]],"operational":[]}')
        same("the frames of a device", (broker.frames(0, 1), broker.snapshot(1), broker.numbers), (changed, changed, [1, 1 + is_wrong]))
        same("a look at a device", (broker.look("config", "/d:n", 1), broker.domains), ("y", 2))
        raises(mdsal.BadDomain, broker.frames, 0, 2), raises(mdsal.BadDomain, broker.look, "config", "/", 2), raises(OverflowError, broker.frames, 0, -1)
        raises(mdsal.NotNewest, broker.epoch, [1, 0]), raises(mdsal.NotNewest, broker.epoch, [1, 1, 0])
        with mdsal.StandBy(script, broker.numbers) as standby:
            raises(mdsal.BadDomain, standby.feed, b"", 2)
            standby.feed(broker.snapshot())
            standby.feed(broker.snapshot(1), 1)
            restarted(mdsal, standby)
        renewed(mdsal, script, broker)
    return "Python: a device's frames, a restart that brings it back, and another script with one more device and one more model"


def restarted(mdsal, standby):
    with standby.lead() as leader:
        same("both domains", (leader.numbers, leader.look("config", "/plain:box/a"), leader.look("config", "/d:n", 1)), ([1, 1], "x", "y"))
        raises(mdsal.refusals.Refused, leader.call, 0, ["begin", 0, 1, "rw"])
        leader.call(0, ["mount", 1, "/plain:box"])
        same("the tree of a device that mounts anew", leader.update(lambda it: it.read("config", "/d:n"), domain=1), "y")


def renewed(mdsal, script, broker):
    """The first script, and then with more. A script that is refused leaves the broker."""
    more = {**script, "upgrades": [[MORE]], "devices": [*script["devices"], {"modules": [MORE], "config": {"more:k": "new"}}]}
    raises(mdsal.BadSchema, broker.renew, {"modules": ["module m {"]}, [1, 1]), raises(mdsal.NotNewest, broker.renew, more, [0, 1])
    raises(mdsal.BadDomain, broker.renew, "{}", [1, 1])
    with broker.renew(more, [1, 1]) as other:
        raises(mdsal.Closed, broker.step, 0, ["pump"])
        looks = [other.look("config", "/plain:box/a"), other.look("config", "/d:n", 1), other.look("config", "/more:k", 2)]
        same("the trees of the next script", (other.numbers, looks), ([1, 1, 0], ["x", "y", "new"]))
        other.call(0, ["upgrade", 1])
        other.update(lambda it: it.put("config", "/more:k", "z"))
        same("a leaf of the new model", (other.look("config", "/more:k"), other.version, other.numbers), ("z", 1, [2, 1, 0]))


def in_rust(folder, room):
    needed("rustc", "cargo")
    shutil.copytree(f"{EMBED}/rust", f"{room}/streams", ignore=shutil.ignore_patterns("target", "Cargo.lock"))
    env = {**os.environ, "MDSAL_LIBRARY_DIR": folder, "CARGO_TARGET_DIR": f"{room}/rust"}
    ran(["cargo", "test", "--quiet", "--offline", "--lib"], cwd=f"{room}/streams", env=env)
    same("the example of streams in Rust", ran(["cargo", "run", "--quiet", "--offline", "--example", "streams"], cwd=f"{room}/streams", env=env), "streams: ok\n")
    return "Rust: frames, an epoch, a stand-by that leads, an update that is overtaken"


REPORTED = 'order\ntree 0 0 {"plain:box":{"a":"x"}} {"plain:box":{"b":"y"}}\n'


def taken_over(mdsal, standby):
    """A stand-by leads: it is closed then, and the broker goes on with its number."""
    with standby.lead() as leader:
        raises(mdsal.Closed, standby.look, "config", "/")
        same("a new leader", (leader.number, leader.left, leader.look("operational", "/plain:box")), (2, 1000000, {"b": "y"}))
        leader.update(lambda it: it.delete("config", "/plain:box/a"))
        same("the next frame", leader.frames(2), framed('{"commit":3,"config":[[[0,1],null]],"operational":[]}'))


def raises(fault, call, *words):
    try:
        told = call(*words)
    except fault:
        return
    raise Differs(f"{call.__name__} {words} gives {told!r}, and should raise {fault.__name__}")


# ---- a broker that is killed, and goes on

CALLS, EPOCH = 30000, 3000


def held(path):
    """Reads a file of frames without the library: the number of its last whole frame, and the rows, by their paths as JSON."""
    with open(path, "rb") as file:
        data = file.read()
    rows, number, at = {}, None, 0
    while at + 9 <= len(data) and at + int(data[at : at + 8]) + 10 <= len(data):
        length = int(data[at : at + 8])
        frame = json.loads(data[at + 9 : at + 9 + length])
        same("the number of a frame", frame["commit"], frame["commit"] if number is None else number + 1)
        rows.update((json.dumps(way), cell) for way, cell in frame["config"] + frame["operational"])
        number, at = frame["commit"], at + length + 10
    return number, {way: cell for way, cell in rows.items() if cell is not None}


def counted(rows, number):
    """Checks the rows of embed/counters.json after this many commits: node 1 is `total`, node 2 the list with its leafs 3 and 4."""
    wanted = {"[0, 1]": number} if number else {}
    for n in range(max(1, number - 999), number + 1):
        wanted.update({f"[0, 2, [{n % 1000}]]": rows.get(f"[0, 2, [{n % 1000}]]"), f"[0, 2, [{n % 1000}], 3]": n % 1000, f"[0, 2, [{n % 1000}], 4]": n})
    same(f"the rows after {number} commits", rows, wanted)


def both_held(path):
    """Checks the files of both domains, and returns the numbers of their last frames: the device has counted its commits in its node 0."""
    number, rows = held(path)
    counted(rows, number)
    device, rows = held(f"{path}.1")
    same(f"the device's rows after {device} commits", rows, {"[0]": device} if device else {})
    return number, device


def killed(words, path, lines, env):
    """Runs the program until it has printed this many lines, kills it, and returns them. What it said was written is in the file."""
    process = subprocess.Popen(words, stdout=subprocess.PIPE, text=True, env=env)
    told = [process.stdout.readline() for _ in range(lines)]
    process.kill()
    told += process.stdout.readlines()
    process.wait()
    numbers = both_held(path)
    written = max([tuple(map(int, it.split()[1:])) for it in told if re.match(r"written \d+ \d+\n", it)], default=(0, 0))
    if any(number < it for number, it in zip(numbers, written)):
        raise Differs(f"{written} commits were written, and the files have {numbers}")
    return told, numbers


def goes_on(language, words, path, env=None, is_wrong=False):
    """Kills the program again and again: each time it goes on with the last frame of its file."""
    last, ends = (0, 0), []
    for lines in (1, 7, 2, 23, 1, 40):
        told, numbers = killed(words, path, lines, env)
        same("the first line", told[0], f"begins at {last[0] + is_wrong} {last[1]}\n")
        last = numbers
        ends.append(numbers[0])
    told = ran(words, env=env).splitlines()
    same("the first line", told[0], f"begins at {last[0]} {last[1]}")
    number, device = both_held(path)
    if not told[-1].startswith(f"total {number} {device} at {number} {device}, ") or 3 * number < CALLS or 200 * device < number:
        raise Differs(f"it ends with {told[-1]!r}, and the files have {number} and {device} commits")
    memory = [int(it.split()[3]) for it in told if it.startswith("epoch ")]
    if max(memory) > 1.2 * memory[0]:
        raise Differs(f"the memory grows with the epochs: {memory} KB")
    return f"{language}: killed at {', '.join(map(str, ends))}, it went on to {number} commits and {device} of a device in {len(memory)} epochs, in {max(memory) // 1024} MB"


def epochs_in_c(folder, room, is_wrong=False):
    path = f"{room}/frames-of-c-{is_wrong}"
    return goes_on("C", [compiled("epochs", folder, room), f"{EMBED}/counters.json", path, str(CALLS), str(EPOCH)], path, is_wrong=is_wrong)


def epochs_in_python(folder, room, is_wrong=False):
    path, env = f"{room}/frames-of-python-{is_wrong}", {**os.environ, "MDSAL_LIBRARY": f"{folder}/libmdsal.so", "PYTHONDONTWRITEBYTECODE": "1"}
    words = ["python3", f"{EMBED}/python/epochs.py", f"{EMBED}/counters.json", path, str(CALLS), str(EPOCH)]
    return goes_on("Python", words, path, env, is_wrong)


# ---- measures

ENTRIES, OFTEN = 100000, 1000


def timed(folder, room):
    """Returns lines with the processor time of each call for streams, from Python, over a list with many entries."""
    mdsal, found = library(folder), []

    def took(what, call, count=1):
        start = time.process_time()
        for _ in range(count):
            told = call()
        found.append(f"{what} {(time.process_time() - start) / count * 1e6:,.1f} µs")
        return told

    with open(f"{EMBED}/counters.json", encoding="utf-8") as file:
        script = json.load(file)
    script["config"] = {"counters:counters": {"total": 0, "cell": [{"k": k, "v": k} for k in range(ENTRIES)]}}
    cell = "/counters:counters/cell[k='50000']/v"
    with mdsal.Broker(script) as broker, mdsal.StandBy(script) as standby:
        took("a look at a leaf", lambda: broker.look("config", cell), OFTEN)
        snapshot = took("a snapshot", broker.snapshot)
        took("a feed of it", lambda: standby.feed(snapshot))
        for n in range(OFTEN):
            broker.update(lambda it, n=n: it.put("config", cell, n))
        took("a text without frames", lambda: broker.frames(OFTEN), OFTEN)
        took("a frame of one commit", lambda: broker.frames(OFTEN - 1), OFTEN)
        frames = took(f"{OFTEN} frames", lambda: broker.frames(0))
        took("a feed of these", lambda: standby.feed(frames))
        took("an epoch", lambda: broker.epoch(OFTEN))
        took("a look of a stand-by", lambda: standby.look("config", cell), OFTEN)
        leader = took("a lead", standby.lead)
        same("the leaders' trees", leader.snapshot(), broker.snapshot())
        leader.close()
    return f"{ENTRIES} entries, a snapshot of {len(snapshot):,} bytes, processor time from Python: {', '.join(found)}"
