#!/usr/bin/env python3
"""Runs the gate, `rt ci`, and tells where its processor minutes go: a table of the crates, with what their proofs, their tests' proofs, their
must-fail edits and their runs took, the dearest edits, and the longest stretches of one process.

What `rt ci` prints is passed on as it comes, and the status is its own. The table is written to standard error when it has ended, and to
a file.

`rt ci` itself tells no times. So the processes that it starts are looked at, twice a second: the crate stands in their words, `--test` marks the
tests, and a folder /tmp/rt-edit-* the edits, which are tried in the order of their names. What a process did after the last look is in the
line "not seen"; the sum is what the system counted, and exact.

usage: bench/gate.py [--to FILE] [COMMAND..]     (default: out/gate.txt, and rt ci)
"""

import os
import re
import resource
import subprocess
import sys
import threading
import time

ROOT = os.path.dirname(os.path.dirname(os.path.abspath(__file__)))
KINDS = ("proof", "tests", "seeds", "edits", "runs")
TICKS = os.sysconf("SC_CLK_TCK")
EVERY = 0.5
# So many of the dearest edits, and of the longest stretches, are told.
TOLD = 12


def read(file):
    try:
        with open(file, "rb") as it:
            return it.read().decode(errors="replace")
    except OSError:
        return ""


class Process:
    """A process as it was seen last."""

    def __init__(self, pid):
        fields = read("/proc/%s/stat" % pid).rpartition(")")[2].split()
        self.is_there = len(fields) > 20
        if self.is_there:
            self.pid, self.parent, self.started = pid, fields[1], int(fields[19])
            self.seconds = (int(fields[11]) + int(fields[12])) / TICKS

    def what(self):
        """The crate and the kind of work, and the folder of an edit, where its words tell."""
        words = read("/proc/%s/cmdline" % self.pid).split("\0")
        ran = [re.fullmatch(r".*/rt-run-[^/]*/bin/(\w+?)(?:_tests)?", it) for it in words]
        if any(ran):
            return next(it for it in ran if it)[1], "runs", None
        if "--crate-name" not in words[:-1]:
            return None
        crate = words[words.index("--crate-name") + 1]
        try:
            folder = os.readlink("/proc/%s/cwd" % self.pid)
        except OSError:
            folder = ""
        edit = re.search(r"/rt-edit-[^/]*", folder)
        if edit and any(it.endswith("/seed") for it in words):
            return crate, "seeds", None
        return crate, "edits" if edit else "tests" if "--test" in words else "proof", edit[0] if edit else None


class Watch:
    """The processor seconds of all that a process has started."""

    def __init__(self, top):
        self.top, self.found, self.is_over = str(top), {}, threading.Event()
        # The folders of each crate's edits, in the order in which they were first seen.
        self.folders = {}
        self.thread = threading.Thread(target=self.look_on, daemon=True)
        self.thread.start()

    def look_on(self):
        while not self.is_over.wait(EVERY):
            self.look()

    def look(self):
        seen = {it: Process(it) for it in os.listdir("/proc") if it.isdigit()}
        seen = {pid: it for pid, it in seen.items() if it.is_there}
        now = time.monotonic()
        for it in seen.values():
            chain, at = [], it
            while at and at.pid != self.top and at not in chain:
                chain.append(at)
                at = seen.get(at.parent)
            if not at or at.pid != self.top or not chain:
                continue
            key = it.pid, it.started
            kept = self.found.get(key)
            if not kept or not kept["what"]:
                what = next((found for found in (above.what() for above in chain) if found), None)
                kept = self.found[key] = {"what": what, "first": kept["first"] if kept else now}
                if what and what[2] and what[2] not in self.folders.setdefault(what[0], []):
                    self.folders[what[0]].append(what[2])
            kept["seconds"], kept["last"] = it.seconds, now

    def stop(self):
        self.is_over.set()
        self.thread.join()


def edits_of(crate):
    """The edits of a crate in the order in which they are tried."""
    folder = os.path.join(ROOT, "crates", crate, "must-fail")
    return sorted(it for it in os.listdir(folder) if it.endswith(".edit")) if os.path.isdir(folder) else []


def by_edit(watch):
    """The seconds of each edit. Behind the last one the crate itself is tried once over what they left, and then what was not refused, again."""
    took = {}
    for kept in watch.found.values():
        if kept["what"] and kept["what"][2]:
            crate, _, folder = kept["what"]
            names, at = edits_of(crate), watch.folders[crate].index(folder)
            name = names[at] if at < len(names) else "(the crate itself, or an edit again)"
            took[crate, name] = took.get((crate, name), 0) + kept["seconds"]
    return took


def table(watch, whole, wall):
    """The lines of the table."""
    sums = {}
    for kept in watch.found.values():
        if kept["what"]:
            crate, kind, _ = kept["what"]
            row = sums.setdefault(crate, dict.fromkeys(KINDS, 0))
            row[kind] += kept["seconds"]
    row_of = "%-12s" + "%9s" * (len(KINDS) + 2)
    lines = ["processor minutes", row_of % ("crate", *KINDS, "all", "edits")]
    for crate, row in sorted(sums.items(), key=lambda it: -sum(it[1].values())):
        cells = ["%.1f" % (row[kind] / 60) for kind in KINDS]
        lines.append(row_of % (crate, *cells, "%.1f" % (sum(row.values()) / 60), len(edits_of(crate))))
    cells = ["%.1f" % (sum(row[kind] for row in sums.values()) / 60) for kind in KINDS]
    seen = sum(sum(row.values()) for row in sums.values())
    lines.append(row_of % ("all", *cells, "%.1f" % (seen / 60), sum(len(edits_of(it)) for it in sums)))
    lines.append("not seen, or of rt itself: %.1f" % ((whole - seen) / 60))
    lines.append("sum: %.1f processor minutes in %.1f minutes" % (whole / 60, wall / 60))
    dear = sorted(by_edit(watch).items(), key=lambda it: -it[1])[:TOLD]
    if dear:
        lines += ["", "the dearest edits, in processor seconds"]
        lines += ["%7.0f  %s/%s" % (seconds, *key) for key, seconds in dear]
    long = sorted((it for it in watch.found.values() if it["what"]), key=lambda it: it["first"] - it["last"])[:TOLD]
    if long:
        lines += ["", "the longest stretches of one process, in minutes (and its processor minutes)"]
        lines += ["%7.1f (%.1f)  %s: %s" % ((it["last"] - it["first"]) / 60, it["seconds"] / 60, *it["what"][:2]) for it in long]
    return lines


def main(words):
    to = os.path.join(ROOT, "out", "gate.txt")
    if words[:1] == ["--to"]:
        to, words = os.path.abspath(words[1]), words[2:]
    began = time.monotonic()
    child = subprocess.Popen(words or ["rt", "ci"], cwd=ROOT)
    watch = Watch(child.pid)
    try:
        status = child.wait()
    except KeyboardInterrupt:
        status = child.wait()
    watch.stop()
    used = resource.getrusage(resource.RUSAGE_CHILDREN)
    text = "\n".join(table(watch, used.ru_utime + used.ru_stime, time.monotonic() - began)) + "\n"
    os.makedirs(os.path.dirname(to), exist_ok=True)
    with open(to, "w", encoding="utf-8") as it:
        it.write(text)
    sys.stdout.flush()
    sys.stderr.write(text)
    return status


if __name__ == "__main__":
    sys.exit(main(sys.argv[1:]))
