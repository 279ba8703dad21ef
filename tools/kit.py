"""The installed kit, and the crates of crates.txt.

The tools support two kits. `rt ci` of rattle-kit-13f takes names of crates and keeps what it proved; `rt ci` of rattle-kit-13b does neither, so
tools/parts proves by parts and keeps them (tools/kept.py).
"""
import importlib.machinery
import importlib.util
import inspect
import os
import subprocess
import sys

KIT = os.environ.get("RATTLE_KIT", "/opt/rattle")
ROOT = os.path.dirname(os.path.dirname(os.path.abspath(__file__)))
KNOWN = ("rattle-kit-13b", "rattle-kit-13f")  # whose arguments, files and internals the tools use
# Names that the tools read in `rt` of a kit that keeps, and of one that does not; and how many arguments its crates_of takes.
KEEPING = (("Kept",), 1)
PLAIN = (("BACKENDS", "IGNORED", "REACHES", "RENAMES", "edits_of", "in_lanes", "must_fail_all", "need", "run", "stop_on_words"), 2)


def found():
    """Returns the name of the kit, as `rt version` begins."""
    ran = subprocess.run([f"{KIT}/bin/rt", "version"], stdin=subprocess.DEVNULL, capture_output=True, text=True)
    return (ran.stdout.split() or ["a kit without a version"])[0]


def tell(tool):
    """Stops if there is no kit, warns if the tools do not support it, and returns its name."""
    if not os.access(f"{KIT}/bin/rt", os.X_OK):
        sys.exit(f"{tool}: there is no Rattle kit in {KIT}: RATTLE_KIT names its folder")
    name = found()
    if name not in KNOWN:
        print(f"{tool}: it knows {' and '.join(KNOWN)}, and this is {name}: if it fails, or its answer looks odd, look there first", file=sys.stderr)
    return name


def command(tool):
    """Returns the kit's own `rt` as a module, and whether its `rt ci` keeps what it proved. Stops if it lacks a name that the tools use."""
    name = tell(tool)
    sys.path.insert(0, f"{KIT}/bin")
    loader = importlib.machinery.SourceFileLoader("rt", f"{KIT}/bin/rt")
    module = importlib.util.module_from_spec(importlib.util.spec_from_loader("rt", loader))
    loader.exec_module(module)
    keeps = hasattr(module, "Kept")
    names, arguments = KEEPING if keeps else PLAIN
    lacking = [it for it in ("Crate", "crates_of", "handles_of", *names) if not hasattr(module, it)]
    if lacking or len(inspect.signature(module.crates_of).parameters) != arguments:
        sys.exit(f"{tool}: `rt` of {name} is not made as in {' or '.join(KNOWN)}{': it lacks ' if lacking else ''}{', '.join(lacking)}. Take `rt ci`, or tools/quick")
    return module, keeps


def crates():
    """Returns, for each crate of crates.txt, the crates that it uses."""
    stands = {}
    with open(f"{ROOT}/crates.txt", encoding="utf-8") as it:
        for line in it:
            line = line.split("#")[0].strip()
            if line:
                name, below = line.split(":")
                stands[name.split()[0]] = below.split()
    return stands


def ordered(name, stands, found):
    """Adds the crates of this repository that the crate uses, lowest first."""
    for it in stands[name]:
        if it in stands:
            ordered(it, stands, found)
            if it not in found:
                found.append(it)
    return found
