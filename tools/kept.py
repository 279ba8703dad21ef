"""The crates as the kit sees them, and what this machine keeps of their proofs: for tools/over and tools/parts.

A kit whose `rt ci` keeps what it proved has its own store. For the other kit, what tools/parts proved is in STORE/NAME/SUM, where SUM is a checksum of
all inputs of this version of the crate, also the libraries below it and the kit. So each clone of the repository finds what another clone proved.
Nothing in the store counts as a verdict: the full check does not read it.
"""
import fcntl
import functools
import hashlib
import os
import shutil
import sys

from kit import KIT, ROOT, command

STORE = os.environ.get("RATTLE_PARTS", os.path.expanduser("~/.cache/rattle-parts"))
MOST = 3  # versions of a crate, each of 10 to 200 MB
# What the result of a part depends on, besides the crate's code.
BESIDE = {"proof": (), "tests": (), "run": ("args", "data", "status", "stdin", "stdout"), "edits": ("must-fail",)}


def repository(tool):
    """Returns the kit's `rt` as a module, the crates by name, lowest first, and the kit's own store, if it has one."""
    kit, keeps = command(tool)
    os.chdir(ROOT)
    kit.Crate.allowed, kit.Crate.cuts_libraries = kit.handles_of(ROOT), True
    if keeps:
        listed = kit.crates_of(ROOT)
        return kit, {it.name: it for it in listed}, kit.Kept(listed)
    kit.rtlib.Crate, kit.Crate.stamp = kit.Crate, stamp
    kit.rtlib.guarded()
    listed = sorted(kit.rtlib.crates_below(ROOT), key=lambda it: len(it.below()))
    return kit, {it.name: it for it in listed}, None


def stand(tool, crate, own):
    """Puts each library below the crate into its place, from the kit's own store if it has one. Stops if some are not kept in this version, and names them."""
    # (one at a time in this copy: a library that another run puts into its place is not whole for a moment)
    with open(f"{ROOT}/crates.txt", encoding="utf-8") as lock:
        fcntl.flock(lock, fcntl.LOCK_EX)
        names = [it.name for it in crate.below() if not (given(it, own) if own else put(it))]
    if names:
        sys.exit(f"{tool}: not kept as they are: {' '.join(names)}. {'`rt ci`' if own else 'tools/parts --proofs'} with their names proves them")


def given(crate, own):
    """Puts the library into its place from the kit's own store, unless it stands there as an earlier tool put it, and returns whether it is kept."""
    key, noted_at = own.key(crate), f"{crate.folder}/out/rlib/kept"
    was = noted(noted_at)
    if was[:1] == [key] and was[2:] == [told(own, crate)]:
        own.rlibs[crate.name], own.marks[crate.name] = was[1], own.mark(crate)
        return True
    # (over a second name of the same file the store's entry would count as damaged, and be dropped)
    shutil.rmtree(f"{crate.folder}/out/rlib/{crate.name}.rlib", ignore_errors=True)
    is_kept_there = own.give(crate, False, key)
    if is_kept_there:
        own.is_built(crate)
        with open(noted_at, "w", encoding="utf-8") as file:
            file.write(f"{key} {own.rlibs[crate.name]} {told(own, crate)}\n")
    return is_kept_there


def told(own, crate):
    """Returns a checksum of what tells whether something replaced the library in its place."""
    return hashlib.sha256(repr(own.mark(crate)).encode()).hexdigest()


# -- sums

def content(file):
    with open(file, "rb") as it:
        return it.read()


def files(folder, parts):
    """Yields the files of these parts (files or folders) of the folder."""
    for part in parts:
        if os.path.isfile(f"{folder}/{part}"):
            yield f"{folder}/{part}"
        for at, folders, names in os.walk(f"{folder}/{part}"):
            folders.sort()
            yield from (f"{at}/{name}" for name in sorted(names))


def summed(folder, parts, *more):
    """Returns a checksum of these parts of the folder and of some texts."""
    made = hashlib.sha256(repr(more).encode())
    for file in files(folder, parts):
        made.update(repr((os.path.relpath(file, folder), content(file))).encode())
    return made.hexdigest()


@functools.lru_cache(None)
def stamp(crate):
    """Returns a checksum of all inputs of the crate, computed once for each crate: the kit's own function reads a library again for each path to it."""
    return summed(crate.folder, ("src", "specs", "proofs"), content(f"{KIT}/WHAT"), crate.said, crate.has_c, [stamp(it) for it in crate.deps])


def key(crate, what):
    """Returns a checksum of all that the result of the part depends on."""
    return summed(crate.folder, BESIDE[what], stamp(crate))


# -- the store of tools/parts

def place(crate):
    return f"{STORE}/{crate.name}/{stamp(crate)}"


def noted(path):
    """Returns the record of a part: the checksum of its inputs, and its CPU seconds. Empty if there is no such file."""
    return content(path).decode().split() if os.path.isfile(path) else []


def is_kept(crate, what):
    return noted(f"{place(crate)}/{what}")[:1] == [key(crate, what)]


def versions(crate):
    """Returns the folders of the kept versions of the crate, oldest first."""
    folder = f"{STORE}/{crate.name}"
    return sorted((it.path for it in os.scandir(folder)), key=os.path.getmtime) if os.path.isdir(folder) else []


def seconds(crate, what):
    """Returns the CPU seconds of the part in the latest version that has a record of them, or None."""
    found = [it for it in (noted(f"{at}/{what}") for at in versions(crate)) if it]
    return float(found[-1][1]) if found else None


def made_of(crate):
    """Returns the results of the crate's proof in its out/."""
    return [crate.name, f"{crate.name}.by-rattle"] if crate.is_program else ["rlib"]


def linked(at, to):
    """Makes a hard link of a file, or of each file of a folder; a copy if the file systems differ. A program that writes one of them anew removes it first."""
    try:
        shutil.copytree(at, to, copy_function=os.link) if os.path.isdir(at) else os.link(at, to)
    except (OSError, shutil.Error):
        shutil.rmtree(to, ignore_errors=True)
        shutil.copytree(at, to) if os.path.isdir(at) else shutil.copy2(at, to)


def remove(path):
    if os.path.isdir(path):
        shutil.rmtree(path, ignore_errors=True)
    elif os.path.exists(path):
        os.remove(path)


def keep(crate, what, took):
    """Keeps the result of the part and its CPU seconds, and removes all but the latest versions of the crate."""
    at = place(crate)
    os.makedirs(at, exist_ok=True)
    for it in made_of(crate) if what == "proof" else []:
        if os.path.exists(f"{crate.folder}/out/{it}") and not os.path.exists(f"{at}/{it}"):
            part = f"{at}/{it}.{os.getpid()}"
            linked(f"{crate.folder}/out/{it}", part)
            os.replace(part, f"{at}/{it}")
    if what == "proof" and crate.makes_rlib():
        mark(crate)
    with open(f"{at}/{what}", "w", encoding="utf-8") as file:
        file.write(f"{key(crate, what)} {took:.1f}\n")
    for old in versions(crate)[:-MOST]:
        shutil.rmtree(old, ignore_errors=True)


def put(crate):
    """Puts the results of the crate's proof into their place, and returns whether they are kept."""
    if not is_kept(crate, "proof"):
        return False
    if crate.makes_rlib() and noted(f"{crate.folder}/out/rlib/kept") == [stamp(crate)]:
        return True
    os.makedirs(f"{crate.folder}/out", exist_ok=True)
    for it in made_of(crate):
        remove(f"{crate.folder}/out/{it}")
        if os.path.exists(f"{place(crate)}/{it}"):
            linked(f"{place(crate)}/{it}", f"{crate.folder}/out/{it}")
    if crate.makes_rlib():
        mark(crate)
    return True


def mark(crate):
    """Records which version of the crate is in its place, so that it is not replaced while another check reads it."""
    with open(f"{crate.folder}/out/rlib/kept", "w", encoding="utf-8") as file:
        file.write(stamp(crate))
