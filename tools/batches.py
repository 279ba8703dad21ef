"""Tries edits over the libraries that this machine keeps, many in one check: for `tools/edits --over`.

The proof of a function rests on its body and on the contracts of what it calls, not on their bodies. So edits of different functions are made
together in one copy of the crate, and a single check answers all of them, each by the line of the function that it changes. The copy leaves out
the bodies and the proofs of the functions that no edit changes: the full check proves those. One of them is proved as it is, to show that the
check ran. What does not follow from a check of several edits is asked again for the edit alone, at last in a copy that leaves out nothing.
"""
import os
import re
import shutil
import subprocess
import tempfile
import time

from kept import repository, stand
from kit import KIT, ROOT

PROOF = """use Rattle.{crate}.proofs.{path}.Statement.{{statement}}
use Rattle.{crate}.proofs.Left_out.{{anything}}

pub {name}_spec : {{M : Type 1}} → statement M
{name}_spec = anything
"""
ANYTHING = "pub anything : {X : Type 2} → X\nanything = ?\n"
PARTS = ("Answers.antt", "Invariants.antt")
# What antt says of a proof that names what an edit took away: it says little of the contract.
NAMES = re.compile(r"has no field|is not in scope|has no `|was not admitted")
HEAD = re.compile(r'( *)(?:pub(?:\([\w ]+\))? )?(?:const )?(?:extern "C" )?fn (\w+)')
CONTRACT = re.compile(r"\b(?:requires|ensures|ghost)\b")


def read(path):
    """Returns the text of the file."""
    with open(path, encoding="utf-8") as file:
        return file.read()


def write(path, text):
    """Writes the file, and makes its folders."""
    os.makedirs(os.path.dirname(path), exist_ok=True)
    with open(path, "w", encoding="utf-8") as file:
        file.write(text)


def name_of(edit):
    """Returns the name of the edit, without its folder."""
    return os.path.basename(edit).removesuffix(".edit")


# -- edits

def edits_of(crate, folder):
    """Returns the files of the crate's edits in edits/ or must-fail/."""
    at = os.path.join(ROOT, "crates", crate, folder)
    return [os.path.join(at, it) for it in sorted(os.listdir(at)) if it.endswith(".edit")] if os.path.isdir(at) else []


def pairs_of(edit):
    """Yields file, old text and new text of each pair of the edit."""
    path = old = ""
    for line in read(edit).split("\n"):
        if line.startswith("file: "):
            path = line[len("file: ") :].strip()
        elif line.startswith("old: "):
            old = line[len("old: ") :]
        elif line.startswith("new:"):
            yield path, old, line[len("new:") :].removeprefix(" ")


def made(edit, crate, texts):
    """Returns the texts of the crate's files, by path, after the edit of these texts, and why it cannot be made, if so."""
    texts, pairs = dict(texts), 0
    for path, old, new in pairs_of(edit):
        file = os.path.join(ROOT, "crates", crate, path)
        if not path.startswith("src/") or not os.path.isfile(file):
            return texts, f"there is no file of code {path or '(none is named)'}"
        text = texts.get(path) or read(file)
        if not old or text.count(old) != 1:
            return texts, f"its old text is {text.count(old) if old else 0} times in {path}"
        texts[path], pairs = text.replace(old, new), pairs + 1
    return texts, "" if pairs else "it has no pair of lines 'old: ' and 'new: '"


# -- functions

def module_of(path):
    """Returns the module that a file of code holds, `lib` or `main` for the root."""
    return path.removeprefix("src/").removesuffix(".rt").replace("/", "::")


def inside(module, name):
    """Returns the path of an item of the module, below the crate."""
    return name if module in ("lib", "main") else f"{module}::{name}"


def type_of(line):
    """Returns the type of an `impl`, as a check names it: `Text`, or `TextFromAtom` for `impl From<Atom> for Text`."""
    found = re.match(r"impl(?:<.*?>)? (?:(\w[\w:]*)(?:<(.*)>)? for )?(\w+)", line)
    if not found:
        return ""
    trait, of = (found[1] or "").split("::")[-1], re.sub(r"<.*", "", found[2] or "")
    return found[3] + trait + re.sub(r"\W", "", of)


def functions_in(path, text):
    """Yields each function of a file of code: its path in the form of `rattle check --only`, the number of its first line, those of the lines with
    the braces of its body (or of its last line twice, if these are not on two lines), and the type whose method it is, if it is one."""
    kind, found = "", None
    for number, line in enumerate(text.split("\n")):
        if line.startswith(("impl", "trait", "pub trait", "}")):
            kind = type_of(line)
        head = None if found else HEAD.match(line)
        if head:
            indent, begin, first = head[1], 0, number
            found = f"{kind}::{head[2]}" if indent and kind else inside(module_of(path), head[2])
        if not found:
            continue
        own = line.startswith(indent) and not line[len(indent) :].startswith((" ", "//"))
        is_last = own and line[len(indent) :] == "}" if begin else line.endswith(";") or line == indent + "{}" or bool(head) and line.endswith("}")
        if is_last:
            yield found, first, begin or number, number, (kind or "?") if indent else ""
            found = None
        elif own and not begin and line.endswith("{"):
            begin = number


def function_at(path, text, at):
    """Returns the path of the function around the byte, or an empty text."""
    line = text[: at + 1].count("\n")
    return next((name for name, first, _, last, _ in functions_in(path, text) if first <= line <= last), "")


def code_of(crate):
    """Returns the texts of the crate's files of code, by path."""
    folder = os.path.join(ROOT, "crates", crate)
    files = [os.path.join(at, it) for at, _, found in os.walk(f"{folder}/src") for it in found if it.endswith(".rt")]
    return {os.path.relpath(it, folder): read(it) for it in sorted(files)}


def users_of(crate, constant):
    """Yields the functions of the crate that name the constant."""
    for path, text in code_of(crate).items():
        for it in re.finditer(rf"\b{constant}\b", text):
            yield function_at(path, text, it.start())


def functions_of(edit, crate):
    """Returns the functions that the edit changes, or those that name the constant that it changes; empty if it changes anything else."""
    names, texts = set(), {}
    for path, old, new in pairs_of(edit):
        text = texts.get(path) or read(os.path.join(ROOT, "crates", crate, path))
        constant = re.match(r"(?:pub(?:\(\w+\))? )?const (\w+)", old)
        found = users_of(crate, constant[1]) if constant else [function_at(path, text, text.find(old))]
        # (beside an import or a comment an edit may put an item of its own)
        names |= set(found) - ({""} if constant or old.startswith(("use ", "//")) else set())
        texts[path] = text.replace(old, new)
    return set() if "" in names else names


def batches_of(edits, crate):
    """Returns lists of edits that one check can answer: of different functions, and none with an edit of a contract."""
    batches = []
    for edit in edits:
        names, is_contract = functions_of(edit, crate), any(CONTRACT.search(old + new) for _, old, new in pairs_of(edit))
        for batch in [*batches, {"edits": [], "texts": {}, "names": set(), "is_closed": is_contract}]:
            texts, why = made(edit, crate, batch["texts"])
            if not why and names.isdisjoint(batch["names"]) and not (batch["edits"] and (batch["is_closed"] or is_contract)):
                batches += [] if batch in batches else [batch]
                batch.update(texts=texts, names=batch["names"] | names, edits=[*batch["edits"], edit])
                break
    return [it["edits"] for it in batches]


# -- what a copy leaves out

def homes_of(texts):
    """Returns the module of each type that one file alone declares."""
    found = [(name, path) for path, text in texts.items() for name in re.findall(r"(?m)^(?:pub(?:\([\w ]+\))? )?(?:struct|enum) (\w+)", text)]
    names = [name for name, _ in found]
    return {name: module_of(path) for name, path in found if names.count(name) == 1}


def calls_of(texts):
    """Returns, for each function, those that it may call: all whose names stand in its body."""
    bodies = {}
    for path, text in texts.items():
        lines = text.split("\n")
        for name, first, begin, last, _ in functions_in(path, text):
            bodies[name] = set(re.findall(r"\w+", "\n".join(lines[begin : last + 1] if begin > first else lines[first + 1 : last + 1])))
    ends = {}
    for name in bodies:
        ends.setdefault(name.split("::")[-1], []).append(name)
    return {name: [it for word in words & ends.keys() for it in ends[word]] for name, words in bodies.items()}


def below(name, calls):
    """Returns the functions that the function may call, and what these may call."""
    found, rest = set(), [name]
    while rest:
        new = set(calls.get(rest.pop(), ())) - found
        found |= new
        rest += new
    return found


def kept_whole(names, calls):
    """Returns these functions and those that stand in a cycle of calls with one of them."""
    return set(names) | {it for name in names for it in below(name, calls) if name in below(it, calls)}


def left_out(texts, whole):
    """Returns the texts of code without the bodies of the functions that are not kept whole, and the paths of these functions."""
    homes, made_texts, paths = homes_of(texts), {}, set()
    for path, text in texts.items():
        lines = text.split("\n")
        for name, first, begin, last, kind in reversed(list(functions_in(path, text))):
            home = homes.get(kind) if kind else ""
            if name in whole or home is None or "const fn" in lines[first]:
                continue
            paths.add(inside(home, name) if home else name)
            if begin < last:
                lines[begin + 1 : last] = ["unreachable!()"]
        made_texts[path] = "\n".join(lines)
    return made_texts, paths


# -- checks

class Copy:
    """A copy of a crate in a folder, in which edits are made and checked over what earlier checks in it proved."""

    def __init__(self, crate, room):
        self.crate, self.name, self.room, self.seconds, self.checks = crate, crate.name, room, 0.0, 0

    def written(self):
        """Returns the folders with files of proofs, below proofs/, with the length of what is written there."""
        at, found = f"{self.crate.folder}/proofs", {}
        for folder, _, files in os.walk(at):
            own = [it for it in PARTS if it in files]
            if own:
                found[os.path.relpath(folder, at)] = sum(os.path.getsize(f"{folder}/{it}") for it in own)
        return found

    def control(self, names):
        """Returns a function that none of these edits changes, one with a short proof, or an empty text."""
        code = code_of(self.name).items()
        known = [it for path, text in code for it, _, begin, last, _ in functions_in(path, text) if begin < last and it not in names]
        sizes = {name: size for at, size in self.written().items() for name in known if f"/{at}".endswith(f"/{name.replace('::', '/')}")}
        return min(sizes, key=sizes.get, default="")

    def fill(self, texts, whole):
        """Writes the crate with these texts of code, without bodies and proofs of the functions that are not kept whole (None keeps all)."""
        for part in ("src", "specs", "proofs"):
            shutil.rmtree(f"{self.room}/{part}", ignore_errors=True)
            if os.path.isdir(f"{self.crate.folder}/{part}"):
                shutil.copytree(f"{self.crate.folder}/{part}", f"{self.room}/{part}")
        texts, paths = left_out({**code_of(self.name), **texts}, whole) if whole is not None else (texts, set())
        for path, text in texts.items():
            write(f"{self.room}/{path}", text)
        for it in self.written():
            if it.replace("/+", "/").replace("/", "::") in paths:
                for part in set(PARTS) & set(os.listdir(f"{self.room}/proofs/{it}")):
                    os.remove(f"{self.room}/proofs/{it}/{part}")
        self.assume(paths)

    def assume(self, paths):
        """Writes proofs of these functions that a check takes for open, at no cost."""
        for path in paths:
            text = PROOF.format(crate=self.name, path=path.replace("::", "."), name=path.split("::")[-1])
            write(f"{self.room}/proofs/{path.replace('::', '/')}/Proof.antt", text)
        if paths:
            library = f"{self.room}/proofs/Lib.antt"
            write(library, (read(library) if os.path.isfile(library) else "") + "\npub mod Left_out\n")
            write(f"{self.room}/proofs/Left_out.antt", ANYTHING)

    def check(self, texts, names, whole):
        """Returns what a check of the functions with these names says, in the crate with these texts of code."""
        self.fill(texts, whole)
        words = self.crate.words(["--jobs", "1", "--allow-holes", "--incremental", f"{self.room}/kept"])
        for it in sorted(names):
            words += ["--only", it]
        start = os.times()
        how = {"stdin": subprocess.DEVNULL, "capture_output": True, "text": True, "errors": "replace"}
        ran = subprocess.run([f"{KIT}/bin/rattle", "check", *words], cwd=self.room, **how)
        end = os.times()
        self.checks += 1
        self.seconds += end.children_user + end.children_system - start.children_user - start.children_system
        output = ran.stdout + ran.stderr
        if "EDITS_LOG" in os.environ:
            with open(os.environ["EDITS_LOG"], "a", encoding="utf-8") as file:
                file.write(f"== {self.name} {time.strftime('%H:%M')} {sorted(names)}, whole: {sorted(whole or ())}\n{output}\n")
        return output


# -- answers

def is_end(name, path):
    """Whether the path of a function ends with the name."""
    return f"::{path}".endswith(f"::{name}")


def lines_of(name, crate, output):
    """Yields path and end of each line that the check has for the function and for the closures in it."""
    own = name.split("::")
    for path, end in re.findall(rf"(?m)^fn {crate}::(\S+): (.*)", output):
        parts = [it for it in path.split("::") if it != "fn"]
        begins = [at for at in range(len(parts)) if parts[at : at + len(own)] == own]
        if begins and (is_end(name, path) or "::fn::" in f"::{path}"):
            yield path, end


def own_refusal(path, end, crate, output):
    """Returns what the check refuses in the function itself, by the end of its line, or an empty text."""
    end = end.split("; it calls")[0]
    goals = re.search(r"^no proof: .*`search` did not prove (`.*)", end)
    if goals:
        return goals[1].replace("`", "")
    module, name = path.replace("::", "."), path.split("::")[-1]
    cycle = f"{module[: -len(name)]}+{name}"
    stands = re.findall(rf"`Rattle\.{crate}\.proofs\.([^`]*)`", end) if end.startswith("not proved; it stands on") else []
    found = [it for it in stands if it.startswith((f"{module}.", f"{cycle}."))]
    errors = re.findall(rf"(?m)^\./proofs/(?:{'|'.join(re.escape(it.replace('.', '/')) for it in (module, cycle))})/\S+ error: (.*)", output)
    if found and errors and all(NAMES.search(it) for it in errors):
        return f"{found[0].split('.')[-1]}, whose proof names what the edit took away"
    return ", ".join(it.split(".")[-1] for it in found)


def is_proved(end):
    """Whether the function has its proof, but for the proofs that the copy leaves out."""
    return end == "no holes" or end.startswith("depends on a hole in") and not re.search(r"`(?!Rattle\.\w+\.proofs\.Left_out\.anything`)[^`]*`", end)


def is_shown(name, crate, output):
    """Whether the check shows nothing against the proof of the function itself. (What it calls may be an edited function.)"""
    lines = list(lines_of(name, crate, output))
    return bool(lines) and not any(end.startswith(("no proof", "could not tell")) or own_refusal(path, end, crate, output) for path, end in lines)


def answer(names, crate, output, is_alone):
    """Returns the result for an edit of these functions: the word for it and what follows, with no word if the check does not tell."""
    open_ends = []
    for name in sorted(names):
        lines = list(lines_of(name, crate, output))
        if not any(is_end(name, path) for path, _ in lines):
            open_ends.append(f"there is no line of {name}")
        for path, end in lines:
            what = own_refusal(path, end, crate, output)
            what = what or (end[:200] if is_alone and end.startswith("not proved; it stands on") else "")
            if what:
                return "refused", f"at {path}: {what}"
            if not is_proved(end):
                open_ends.append(f"{path}: {end[:200]}")
    return ("", open_ends[0]) if open_ends else ("NOT REFUSED", f"({', '.join(sorted(names))})")


def unread(batch, crate, output, texts):
    """Returns the edits of the batch that the compiler cannot read, each with what it says."""
    found = {}
    for path, line, said in re.findall(r"(?m)^(?:\./)?(src/\S+?\.rt):(\d+):\d+: (error.*)", output):
        text = texts.get(path) or ""
        at = function_at(path, text, len("".join(text.splitlines(True)[: int(line)])) - 2)
        found |= {it: said for it, names in batch.items() if at in names}
    for said, name in re.findall(r"(?m)^rattle: (error: (?:`\S+` has no function|several functions are named) `(\S+)`.*)", output):
        found |= {it: said for it, names in batch.items() if name in names}
    return {it: said[:250] for it, said in found.items()}


def answers(batch, copy, is_whole=False):
    """Yields each edit of the batch with its result, from one check if that tells it, else from a check of the edit alone."""
    if not batch:
        return
    texts, functions, is_alone = {}, {it: functions_of(it, copy.name) for it in batch}, len(batch) == 1
    for it in batch:
        texts, _ = made(it, copy.name, texts)
    names = set().union(*functions.values())
    control = "" if is_whole else copy.control(names)
    asked = names | ({control} if control else set())
    output = copy.check(texts, asked, None if is_whole else kept_whole(asked, calls_of({**code_of(copy.name), **texts})))
    bad = unread(functions, copy.name, output, texts)
    rest = [it for it in batch if it not in bad]
    yield from ((it, "DOES NOT READ", said) for it, said in bad.items())
    if not re.search(r"(?m)^fn ", output):
        if is_alone and rest and not is_whole:
            yield from answers(rest, copy, True)
        elif is_alone and rest:
            yield rest[0], "NOT TRIED", output.strip().split("\n")[-1][:250]
        else:
            for part in [rest] if bad else [rest[: len(rest) // 2], rest[len(rest) // 2 :]]:
                yield from answers(part, copy)
        return
    is_sound = not control or is_shown(control, copy.name, output)
    for it in rest:
        word, more = answer(functions[it], copy.name, output, is_alone)
        if is_whole or word == "refused" and is_sound:
            yield it, word or "UNCLEAR", more
        else:
            yield from answers([it], copy, is_alone)


def tried(crate, picked):
    """Prints the result of each edit of the crate, or of those that are picked by name, and returns how many were not refused."""
    every = [it for it in edits_of(crate, "edits") + edits_of(crate, "must-fail") if not picked or name_of(it) in picked]
    told = {it: ("NO LONGER APPLIES", why) for it in every for _, why in [made(it, crate, {})] if why}
    odd = [it for it in every if it not in told and not functions_of(it, crate)]
    told |= {it: ("NOT TRIED", "it changes more than functions: tools/edits NAME tries it") for it in odd}
    for it, (word, more) in told.items():
        print(f"{crate}/{name_of(it)}: {word}: {more}", flush=True)
    rest, failed = [it for it in every if it not in told], len(told)
    if not rest:
        return failed
    _, crates, own = repository("tools/edits")
    stand("tools/edits", crates[crate], own)
    with tempfile.TemporaryDirectory(prefix="edits-") as room:
        copy = Copy(crates[crate], room)
        for batch in batches_of(rest, crate):
            for it, word, more in answers(batch, copy, len(picked) == 1):
                failed += word != "refused"
                print(f"{crate}/{name_of(it)}: {word} {more}", flush=True)
        print(f"{crate}: {len(every)} edits, {failed} not refused; {copy.checks} checks, {copy.seconds:.0f} CPU seconds", flush=True)
    return failed
