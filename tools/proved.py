"""What the tree is made of, and for which text of it the program that lies here was proved."""

import contextlib
import hashlib
import importlib
import json
import os
import shutil
import subprocess
import sys

from rt_once import summed_once

ROOT = os.path.dirname(os.path.dirname(os.path.abspath(__file__)))
CRATES = os.path.join(ROOT, "crates")
PROGRAM = os.path.join(CRATES, "ymodem", "out", "ymodem")
NOTE = os.path.join(ROOT, "out", "proved.json")
# For which text each crate was seen green: it and its tests, those in other crates too.
GREEN = os.path.join(ROOT, "out", "green.json")
# What the proof of a crate reads, and then what its program is run on.
PROOF_PARTS = ("src", "specs", "proofs")
# `rt`, where it asks whether libraries changed.
RT = [sys.executable, "-B", os.path.join(ROOT, "tools", "rt_once.py")]
PARTS = (*PROOF_PARTS, "stdin", "stdout", "args", "status", "data")


def crates():
    """The crates of this repository, lowest first, each with those that it uses."""
    with open(os.path.join(ROOT, "crates.txt"), encoding="utf-8") as it:
        lines = [line.partition(":") for line in it if line.strip() and not line.startswith("#")]
    return {name.split()[0]: used.split() for name, _, used in lines}


def made_of(*tops):
    """The names of the crates that these are made of, lowest first, with their own."""
    found = crates()
    used, left = set(), list(tops)
    while left:
        name = left.pop()
        if name in found and name not in used:
            used.add(name)
            left += found[name]
    return [name for name in found if name in used]


def sources(name, parts=PARTS):
    """The files of a crate, in order. Its out/ is made by rt."""
    for part in parts:
        top = os.path.join(CRATES, name, part)
        if os.path.isfile(top):
            yield top
        for folder, folders, files in os.walk(top):
            folders.sort()
            for it in sorted(files):
                yield os.path.join(folder, it)


def sum_of(names, parts=PARTS):
    """A sum of the files of these crates."""
    found = hashlib.sha256()
    for it in (file for name in names for file in sources(name, parts)):
        found.update(os.path.relpath(it, CRATES).encode() + b"\0" + sum_of_file(it).encode())
    return found.hexdigest()


def sum_of_file(name):
    with open(name, "rb") as it:
        return hashlib.sha256(it.read()).hexdigest()


def sums():
    """The sum of each crate's files."""
    return {name: sum_of([name]) for name in crates()}


def noted(file):
    """What was taken down in a file of notes; nothing, where there is none."""
    try:
        with open(file, encoding="utf-8") as it:
            return dict(json.load(it))
    except (OSError, ValueError):
        return {}


def green():
    """The sums of the crates as they were seen green."""
    return noted(GREEN)


def note_green(seen):
    """Takes down that these crates were seen green, by their sums."""
    found = {**green(), **seen}
    os.makedirs(os.path.dirname(GREEN), exist_ok=True)
    with open(GREEN, "w", encoding="utf-8") as it:
        json.dump(found, it)


def kit():
    """The toolchain, as it tells of itself."""
    return subprocess.run(["rt", "version"], capture_output=True, text=True, check=False).stdout.strip()


def state(name):
    """What the proof of a program rests on, and the program."""
    with open(os.path.join(ROOT, "HANDLES"), encoding="utf-8") as it:
        handles = it.read()
    program = os.path.join(CRATES, name, "out", name)
    return {"text": sum_of(made_of(name), PROOF_PARTS), "kit": kit(), "handles": handles, "program": sum_of_file(program)}


def note(name):
    """Takes down that this program was just proved and built from the text as it is."""
    with contextlib.suppress(OSError):
        os.makedirs(os.path.dirname(NOTE), exist_ok=True)
        with open(NOTE, "w", encoding="utf-8") as it:
            json.dump({name: state(name)}, it)


def stamp(top, names, say=print):
    """Has builds in this copy of the tree take the libraries of these crates as the gate made them.

    A build takes a library beside which stands for which text it was made. The gate leaves that out, so it is written here, by the toolchain's own
    sum. Where that cannot be had, the libraries are proved once more."""
    rt = shutil.which("rt")
    if not rt:
        return
    sys.path.append(os.path.dirname(os.path.realpath(rt)))
    try:
        crate_at, known = importlib.import_module("rtlib").Crate, {}
        crate_at.stamp = summed_once(crate_at.stamp)
        for name in names:
            folder = os.path.join(top, "crates", name)
            with open(os.path.join(folder, "out", "rlib", "stamp"), "w", encoding="utf-8") as it:
                it.write(crate_at(folder, top, known).stamp())
    except (ImportError, AttributeError, TypeError, OSError, SystemExit) as fault:
        say("the libraries are proved once more: %s" % fault)
    finally:
        sys.path.pop()


def holds(name):
    """Whether the program that lies here was proved from the text as it is, by this toolchain."""
    try:
        with open(NOTE, encoding="utf-8") as it:
            return json.load(it).get(name) == state(name)
    except (OSError, ValueError):
        return False
