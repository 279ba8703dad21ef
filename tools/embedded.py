"""The tests of tools/embed for the embedded broker's library: the expected answers, and that a wrong expectation is reported.

Each test takes the library's folder and a folder for its output, and returns a line with its result. It raises `Differs` if the result is not the
expected one, and `Absent` if a program that it needs is missing.
"""
import hashlib
import json
import os
import re
import resource
import shutil
import subprocess
import sys
import threading
import time

from kit import ROOT

EMBED = f"{ROOT}/embed"
C = ["-std=c11", "-Wall", "-Wextra", "-Werror", "-pedantic", f"-I{EMBED}"]
SANITIZERS = ["-O1", "-g", "-fsanitize=address,undefined", "-fno-sanitize-recover=all", "-fno-omit-frame-pointer"]
VALGRIND = ["valgrind", "--quiet", "--leak-check=full", "--errors-for-leak-kinds=all", "--error-exitcode=99"]
SPACE = re.compile(r"[ \t\n\r]*")
LOCAL = {"put", "merge", "delete", "read", "exists", "mirror"}
OWN_REFUSALS = re.compile(r"refused (empty-slot|read-only|no-device|no-upgrade|unknown-name|path |data )")


class Differs(Exception):
    """The library does not do what is expected."""


class Absent(Exception):
    """A program that the test needs is missing."""


# ---- programs

def needed(*programs):
    for it in programs:
        if not shutil.which(it):
            raise Absent(f"there is no {it}")


def ran(words, **how):
    """Runs a program, and returns its output."""
    done = subprocess.run(words, stdout=subprocess.PIPE, stderr=subprocess.PIPE, text=True, errors="replace", **how)
    if done.returncode:
        raise Differs(f"{os.path.basename(words[0])} ended with {done.returncode}\n{done.stdout[-2000:]}{done.stderr[-4000:]}")
    return done.stdout


def same(what, told, wanted):
    if told != wanted:
        raise Differs(f"{what}: {told!r}, and should be {wanted!r}")


def compiled(source, folder, room, flags=("-O2",), compiler="gcc"):
    """Compiles a C program of embed/c over the library."""
    needed(compiler)
    out = f"{room}/{source}-{compiler}-{hashlib.sha256(repr(flags).encode()).hexdigest()[:8]}"
    if not os.path.exists(out):
        ran([compiler, *C, *flags, f"{EMBED}/c/{source}.c", f"{folder}/libmdsal.a", "-o", out])
    return out


def sanitizing(room):
    """Returns a compiler with sanitizers: clang if it is there, else gcc."""
    with open(f"{room}/empty.c", "w", encoding="utf-8") as file:
        file.write("int main(void) { return 0; }\n")
    for it in ("clang", "gcc"):
        words = [it, *SANITIZERS, f"{room}/empty.c", "-o", f"{room}/empty"]
        if shutil.which(it) and subprocess.run(words, capture_output=True).returncode == 0:
            return it
    raise Absent("neither clang nor gcc has AddressSanitizer")


def library(folder):
    """Returns the Python module over the library."""
    os.environ["MDSAL_LIBRARY"] = f"{folder}/libmdsal.so"
    if f"{EMBED}/python" not in sys.path:
        sys.path.insert(0, f"{EMBED}/python")
    import mdsal

    return mdsal


# ---- the same program in each language

def wanted_of_example(is_wrong):
    with open(f"{EMBED}/two_clients.txt", encoding="utf-8") as file:
        text = file.read()
    return text.replace("done 2", "done 3", 1) if is_wrong else text


def example(language, words, is_wrong, **how):
    told, wanted = ran(words, **how), wanted_of_example(is_wrong)
    if told != wanted:
        lines = [(one, other) for one, other in zip(told.split("\n"), wanted.split("\n")) if one != other] or [("", "")]
        raise Differs(f"the example in {language} prints {lines[0][0]!r}, and embed/two_clients.txt has {lines[0][1]!r}")
    return f"{language}: the example prints what embed/two_clients.txt has"


def example_in_c(folder, room, is_wrong=False):
    return example("C", [compiled("two_clients", folder, room), f"{EMBED}/two_clients.json"], is_wrong)


def example_in_python(folder, room, is_wrong=False):
    env = {**os.environ, "MDSAL_LIBRARY": f"{folder}/libmdsal.so", "PYTHONDONTWRITEBYTECODE": "1"}
    return example("Python", ["python3", f"{EMBED}/python/two_clients.py", f"{EMBED}/two_clients.json"], is_wrong, env=env)


def example_in_rust(folder, room, is_wrong=False):
    needed("rustc", "cargo")
    if not os.path.exists(f"{room}/crate"):
        shutil.copytree(f"{EMBED}/rust", f"{room}/crate", ignore=shutil.ignore_patterns("target", "Cargo.lock"))
    env = {**os.environ, "MDSAL_LIBRARY_DIR": folder, "CARGO_TARGET_DIR": f"{room}/rust"}
    words = ["cargo", "run", "--quiet", "--offline", "--example", "two_clients", f"{EMBED}/two_clients.json"]
    return example("Rust", words, is_wrong, cwd=f"{room}/crate", env=env)


# ---- careless calls from C

def careless(folder, room, flags=()):
    ran([compiled("hostile", folder, room, ("-O2", *flags))])
    return "C: careless calls have their statuses, and change nothing"


def careless_sanitized(folder, room, flags=()):
    compiler = sanitizing(room)
    ran([compiled("hostile", folder, room, (*SANITIZERS, *flags), compiler)])
    return f"C: the same under the sanitizers of {compiler}: no error, no leak"


def careless_in_valgrind(folder, room, flags=()):
    needed("valgrind")
    ran([*VALGRIND, compiled("hostile", folder, room, ("-O1", "-g", *flags))])
    return "C: the same under valgrind: no error, no leak"


def full(folder, room):
    told = ran([compiled("hostile", folder, room), "1000003"]).split("\n")
    return f"C: 1,000,000 shared calls, and no more; {told[0]}; {told[1]}"


# ---- steps of every bad form

# The steps as docs/FORMATS.md writes them. Of them, t, c, l, k and q are slots; d, e and m are numbers.
FORMS = """begin t d o; chain c d; chain-begin c t o; close-chain c; put t s p v; merge t s p v; delete t s p; read t s p; exists t s p; submit t;
cancel t; settle t; pump; listen l d s p; take l; unlisten l; mirror l; provide r x; withdraw r x; invoke k r x v; next-call q; answer q v; collect k;
subscribe n; offer n v; take-notes; mount e p; unmount d; mount-at p; mark m; after m; upgrade u"""
SLOT, NUMBER, TEXT = ("0", "255"), ("0", "4294967295"), ('""', '"/plain:box"', '"\\u0000"')
GOOD = {**dict.fromkeys("tclkq", SLOT), **dict.fromkeys("dem", NUMBER), **dict.fromkeys("prn", TEXT)}
GOOD.update(u=("1", "16"), s=('"config"', '"operational"'), o=('"ro"', '"wo"', '"rw"'), x=("null", *TEXT), v=("null", "0", '"x"', "[]", '{"a":[{}]}'))
NO_NUMBER = ("-1", "0.5", '"0"', "null", "[]", "{}", "true", "1e400", "18446744073709551616", "00", "+1", "0x1", "NaN")
NO_TEXT = ("0", "null", "[]", "{}", "true", "x", "'x'", '"\\x"', '"\\ud800"', '"\x01"')
BAD = {**dict.fromkeys("tclkq", ("256", *NO_NUMBER)), **dict.fromkeys("dem", ("4294967296", *NO_NUMBER)), **dict.fromkeys("prn", NO_TEXT)}
BAD.update(u=("0", "17", *NO_NUMBER), s=('"state"', '""', '"Config"', *NO_TEXT), o=('"wr"', '""', '"RW"', *NO_TEXT), x=NO_TEXT[:1] + NO_TEXT[2:])
BAD["v"] = ("", "nul", "{", "[", '"', "{a:1}", '{"a"}', "[1,]", "tru", "01")


def written(word, parts):
    return "[" + ",".join([json.dumps(word), *parts]) + "]"


def forms():
    """Yields each form of a step: its keyword, and the letters of its parts."""
    for it in FORMS.replace("\n", " ").split(";"):
        word, *letters = it.split()
        yield word, letters


def good_steps():
    for word, letters in forms():
        base = [GOOD[it][0] for it in letters]
        yield written(word, base)
        for at, it in enumerate(letters):
            yield from (written(word, [*base[:at], other, *base[at + 1 :]]) for other in GOOD[it][1:])


def bad_steps():
    """Yields, for each form: a part of another kind, one part too few or too many, another keyword, other brackets, and each prefix of the text."""
    for word, letters in forms():
        base = [GOOD[it][0] for it in letters]
        text = written(word, base)
        for at, it in enumerate(letters):
            yield from (written(word, [*base[:at], other, *base[at + 1 :]]) for other in BAD[it])
            yield written(word, [*base[:at], *base[at + 1 :]])
        yield from (written(word, [*base, more]) for more in ("null", "0", '""', "[]"))
        yield from (written(other, base) for other in ("", word.upper(), f"{word} ", f" {word}", word[:-1], f"{word}\0"))
        yield from (f"{{{json.dumps(word)}:[{','.join(base)}]}}", f"[{text}]", f"{text},", f"{text}{text}", f"{text} x", json.dumps(text), f"[{','.join([word, *base])}]")
        yield from (text[:length] for length in range(len(text)))


def bad_bytes():
    """Yields texts that are not UTF-8."""
    for text in good_steps():
        text = text.encode()
        yield from (text[:at] + bytes([255]) + text[at:] for at in range(0, len(text) + 1, 7))
        yield text + b"\0"


def every_form(folder, room, is_wrong=False):
    mdsal = library(folder)
    bad = [*(it.encode() for it in bad_steps()), *bad_bytes(), *([b'["pump"]'] if is_wrong else [])]
    good = [it.encode() for it in good_steps()]
    with mdsal.Broker("{}") as broker:
        for step in [*bad, b"[" * 100000, b'["put",0,"config","/",' + b"[" * 100000]:
            refused(mdsal, broker, step, mdsal.BadStep)
        if broker.report() != "order\ntree 0 0 {} {}\n":
            raise Differs(f"what is no step changed the report:\n{broker.report()}")
        for step in good:
            refused(mdsal, broker, step, None)
    return f"Python: {len(bad)} bad steps, of every form, are refused and change nothing; {len(good)} good ones are made"


def refused(mdsal, broker, step, fault):
    """Makes a step that must be refused with this fault, or have a reply if there is none."""
    try:
        reply = broker.step(0, step)
    except mdsal.Error as it:
        if fault is None or type(it) is not fault:
            raise Differs(f"the step {step[:80]} is refused: {type(it).__name__}") from it
        return
    if fault:
        raise Differs(f"the step {step[:80]} has the reply {reply!r}, and should be none")


# ---- threads

def threads(folder, room):
    """Eight threads share a broker, each as one client. Each commits a thousand values of its own leaf."""
    mdsal, wrong, count = library(folder), [], 1000
    with mdsal.Broker("{}") as broker:
        def works(client):
            for i in range(count):
                replies = [broker.step(client, step) for step in (["begin", 0, 0, "rw"], ["put", 0, "config", f"/plain:box/{chr(97 + client)}", str(i)], ["submit", 0], ["settle", 0])]
                if not (replies[0].startswith("begun ") and replies[1] == "ok" and replies[2].startswith("receipt ") and replies[3].startswith("done ")):
                    wrong.append(replies)

        workers = [threading.Thread(target=works, args=(client,)) for client in range(8)]
        for it in workers:
            it.start()
        for it in workers:
            it.join()
        report = broker.report()
        broker_moved(mdsal, wrong)
    lines = report.split("\n")
    last = f'tree 0 {8 * count} {{"plain:box":{{{",".join(f"{chr(34)}{chr(97 + it)}{chr(34)}:{chr(34)}{count - 1}{chr(34)}" for it in range(8))}}}}} {{}}'
    if wrong or lines[-2] != last or len(lines) != 8 * 4 * count + 3:
        raise Differs(f"eight threads at one broker: {wrong[:2]}, and at the end {lines[-2][:300]}")
    return f"Python: eight threads share a broker, {8 * 4 * count} steps; one opens a broker that another one uses and closes"


def broker_moved(mdsal, wrong):
    """Opens a broker on one thread, and uses and closes it on another."""
    made = []
    opener = threading.Thread(target=lambda: made.append(mdsal.Broker("{}")))
    opener.start()
    opener.join()
    with made.pop() as broker:
        if broker.step(0, ["begin", 0, 0, "rw"]) != "begun 0":
            wrong.append("a broker that moved")


# ---- statuses

# Names of errors in Rust and Python that are not those of the header.
OTHER_NAMES = {"NotOpen": "Closed", "IsStandby": "IsStandBy", "NoMemory": "MemoryError"}


def numbers_in(path, pattern):
    """Returns the numbers that the pattern finds in the file of the repository, by name."""
    with open(f"{ROOT}/{path}", encoding="utf-8") as file:
        return {name: int(number) for name, number in re.findall(pattern, file.read(), re.M)}


def header_statuses():
    return numbers_in("embed/mdsal.h", r"^    MDSAL_([A-Z_]+) = (\d+)")


def camel(name):
    return "".join(it.capitalize() for it in name.split("_"))


def statuses(folder, room, is_wrong=False):
    """The header, the crates, the modules for Rust and Python have the same statuses under the same names."""
    header = header_statuses()
    if is_wrong:
        header["UNTOLD"] = 99
    crate = numbers_in("crates/sal_session/src/numbers.rt", r"^pub const ([A-Z_]+): u32 = (\d+);")
    command = numbers_in("crates/sal_prepare/src/status.rt", r"Status::(\w+)(?: \{ \.\. \})? => (\d+),")
    rust = numbers_in("embed/rust/src/lib.rs", r"^            (?=(?:\d+) => Error::(\w+))(\d+)")
    python = {number: it.__name__ for number, it in library(folder).errors.FAULTS.items()}
    for name, number in header.items():
        told = command.get(camel(name)) if number < 21 and name not in crate else crate.get(name)
        if name == "OK":
            told = crate.pop("DONE")
        same(f"the status {name} of the header, and that of its crate", told, number)
        crate.pop(name, None)
        if number and number < 21:
            same(f"the status {name}, and the command's", command[camel(name)], number)
        it = camel(name)
        if number and python.pop(number, None) not in (it, OTHER_NAMES.get(it)):
            raise Differs(f"the status {name} has another error in Python")
        here = it if it in rust else OTHER_NAMES.get(it)
        if here in rust:
            same(f"the status {name} of the header, and that of Rust", rust.pop(here), number)
    if crate or python or rust:
        raise Differs(f"the header lacks {[*crate, *python.values(), *rust]}")
    return f"{len(header)} statuses of the header are those of the crates and of the modules for Rust and Python"


# ---- failing allocations

STEPS = """0 ["listen",0,0,"config","/plain:box"]
0 ["begin",0,0,"rw"]
0 ["put",0,"config","/plain:box/a","x"]
1 ["begin",0,0,"rw"]
1 ["merge",0,"config","/plain:box",{"b":"y"}]
1 ["put",0,"config","/plain:box/a","z"]
0 ["submit",0]
1 ["submit",0]
1 ["settle",0]
0 ["settle",0]
2 ["chain",0,0]
2 ["chain-begin",0,0,"rw"]
2 ["put",0,"operational","/plain:box/c","w"]
2 ["read",0,"operational","/plain:box"]
2 ["submit",0]
2 ["pump"]
0 ["take",0]
0 ["mirror",0]
1 ["begin",1,0,"ro"]
1 ["read",1,"config","/plain:box"]
""".splitlines()
NO_BROKER = "{}"


def wanting(folder, room, is_wrong=False):
    """Each allocation fails in turn: the steps that were made are themselves a script, whose report is the one that was returned."""
    try:
        how = ((*SANITIZERS, "-Wl,--wrap=malloc,--wrap=realloc"), sanitizing(room))
    except Absent:
        how = (("-O2", "-Wl,--wrap=malloc,--wrap=realloc"), "gcc")
    program = compiled("wanting", folder, room, *how)
    with open(f"{room}/script.json", "w", encoding="utf-8") as file:
        file.write(NO_BROKER)
    counts = {}
    for n in range(1, 1 << 20):
        done = subprocess.run([program, f"{room}/script.json", str(n)], input="\n".join(STEPS) + "\n", capture_output=True, text=True)
        if done.returncode not in (0, 3):
            raise Differs(f"with allocation {n} failing the program ended with {done.returncode}\n{done.stderr[-4000:]}")
        lines = done.stdout.split("\n")
        statuses = [int(it) for it in lines[: len(STEPS) + 2]]
        for it in statuses[:-1]:
            counts[it] = counts.get(it, 0) + 1
        stay_lost(n, statuses)
        remade(n, statuses, "\n".join(lines[len(STEPS) + 2 :]), folder, is_wrong)
        if done.returncode == 3:
            for name in ("OK", "NO_MEMORY", "LOST", "UNTOLD", "BROKEN"):
                if header_statuses()[name] not in counts:
                    raise Differs(f"no allocation that fails gives the status {name}")
            told = ", ".join(f"{it} {counts[it]} times" for it in sorted(counts))
            return f"C: each of {n - 1} allocations failed in turn, and the reports are those of the steps that were made; statuses: {told}"
    raise Differs("there is no end of allocations")


def stay_lost(n, statuses):
    """A client that is lost answers so at each later step."""
    lost = set()
    for status, step in zip(statuses[1:-1], STEPS):
        client = step.partition(" ")[0]
        if client in lost and status != 26:
            raise Differs(f"with allocation {n} failing client {client} is lost, and then answers {status}")
        if status == 26:
            lost.add(client)


def remade(n, statuses, report, folder, is_wrong):
    """Makes the steps that were made once more, with enough memory."""
    if statuses[0] != 0 or 28 in statuses:
        if statuses[-1] != 21 or report:
            raise Differs(f"with allocation {n} failing there is a report of no broker")
        return
    with library(folder).Broker(NO_BROKER) as broker:
        for status, step in zip(statuses[1:-1], STEPS):
            client, _, step = step.partition(" ")
            if status in (0, 27) or is_wrong:
                broker.step(int(client), step)
        if statuses[-1] != 0 or broker.report() != report:
            raise Differs(f"with allocation {n} failing the report is not that of the steps that were made")


# ---- the cases of the test corpus

def parts_of(text):
    """Yields the parts of the array or the object: the name or None, and the text of the value."""
    at, name = 1, None
    while True:
        at = SPACE.match(text, at).end()
        if text[at] in "]}":
            return
        end = json.JSONDecoder(strict=False).raw_decode(text, at)[1]
        behind = SPACE.match(text, end).end()
        if text[behind] == ":":
            name, at = json.loads(text[at:end]), behind + 1
            continue
        yield name, text[at:end]
        name, at = None, behind + (text[behind] == ",")


def programs_in(script):
    """Returns the texts of each client's steps in the script."""
    clients = dict(parts_of(script)).get("clients", "[]")
    return [[step for _, step in parts_of(dict(parts_of(client))["steps"])] for _, client in parts_of(clients)]


def played(broker, programs, order):
    """Makes the steps of the clients in this order of their shared calls, then the remaining local steps."""
    at = [0] * len(programs)
    for client in [*order, *range(len(programs))]:
        while at[client] < len(programs[client]):
            step = programs[client][at[client]]
            at[client] += 1
            reply = broker.step(client, step)
            if json.loads(step, strict=False)[0] not in LOCAL and not OWN_REFUSALS.match(reply):
                break


def cases(folder, room, maker, is_wrong=False):
    """Plays the cases, each in the order of its report, until one differs."""
    mdsal, count = library(folder), 0
    for case, text, report in with_reports(maker):
        text = text.strip()
        report = report.replace("begun 0", "begun 1", 1) if is_wrong else report
        bare = ",".join(f"{json.dumps(name)}:{it}" for name, it in parts_of(text) if name not in ("clients", "order"))
        with mdsal.Broker(f"{{{bare}}}") as broker:
            played(broker, programs_in(text), [int(it) for it in report.split("\n")[0].split(" ")[1:]])
            if broker.report() != report:
                raise Differs(f"the report of {case} is not that of its file")
        count += 1
    return f"Python: {count} cases of the corpus, step by step, have their reports"


def with_reports(maker):
    """Yields the cases that have the whole report of a script, with input and report."""
    for folder in maker.folders():
        for name in maker.names_in(folder):
            path = f"{maker.path_of(folder)}/{name}"
            report = maker.text_of(f"{path}.txt", "")
            if report.startswith("order") and not os.path.exists(f"{path}.faults"):
                yield f"{folder}/{name}", maker.input_of(folder, name), report


# ---- measures

TURN = ('["after",7]',)
TRANSACTION = (
    '["begin",0,0,"rw"]', '["put",0,"config","/plain:box/a","x"]', '["put",0,"config","/plain:box/b","y"]', '["read",0,"config","/plain:box"]', '["submit",0]', '["settle",0]',
)


def timed(folder, room, program=None):
    """Returns lines with the time of a step from C, from Python, and in `sim` of this program, if one is given."""
    found, count = [], 59994
    for name, steps in (("a call that only looks", TURN), ("a transaction of 6 steps, 2 of them puts", TRANSACTION)):
        told = subprocess.run([compiled("timed", folder, room), str(count)], input="\n".join(steps) + "\n", capture_output=True, text=True, check=True).stdout.split()
        line = f"{name}, {count} steps, in processor microseconds a step: C {told[0]} and {told[1]} for the report, Python {timed_in_python(folder, steps, count):.2f}"
        found.append(line + (f", mdsal sim with its reading and its report {timed_in_sim(room, steps, count, program):.2f}" if program else ""))
    return "\n".join(found)


def timed_in_python(folder, steps, count):
    with library(folder).Broker("{}") as broker:
        start = time.process_time()
        for i in range(count):
            broker.step(0, steps[i % len(steps)])
        return (time.process_time() - start) / count * 1e6


def timed_in_sim(room, steps, count, program):
    text = ",".join(steps[i % len(steps)] for i in range(count))
    shared = sum(json.loads(steps[i % len(steps)])[0] not in LOCAL for i in range(count))
    with open(f"{room}/timed.json", "w", encoding="utf-8") as file:
        file.write(f'{{"clients":[{{"steps":[{text}]}}],"order":[{",".join(["0"] * shared)}]}}')
    was = resource.getrusage(resource.RUSAGE_CHILDREN)
    with open(f"{room}/timed.json", encoding="utf-8") as file:
        subprocess.run([program, "sim"], stdin=file, stdout=subprocess.DEVNULL, check=True)
    now = resource.getrusage(resource.RUSAGE_CHILDREN)
    return (now.ru_utime + now.ru_stime - was.ru_utime - was.ru_stime) / count * 1e6
