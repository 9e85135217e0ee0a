#!/usr/bin/env python3
"""Runs the gate, `rt ci`, and beside it all that is tried before a change lands.

The gate proves every crate, tries the edits that have to be refused, and runs the crates' tests.
Where the toolchain's `rt ci` keeps what it proves, the crates of the program are proved first, by
themselves (tools/prove.py), and are kept for the gate. It begins when at most two of those that are
left can be proved side by side: they still get all processors that they can use, and the gate the
others. Where it keeps nothing, the gate begins at once. Once the program is proved come, while the
gate is at the rest, the tests of that very program, folder by folder of tests/. So nothing is
proved twice, and most tests wait for lines and peers while the gate needs the processors.

Beside all that come want of memory (tests/memory), what the crates keep to (tests/house), and the
library for C with the page, made in a copy of the tree since the gate holds the crates' folders,
over the crates that the gate proved. Those tests of the page and of the files for every processor
that need no program begin once these are made.

Of each folder a line tells how many tests passed, failed and were skipped, and others why they were
skipped; where one fails, all that pytest said is told, and the end of it once more behind all else.
Where pytest is not installed all of them are skipped, and the last lines but the gate's own say so.

What the gate does is told in a line each as it comes. All that it says stands in out/gate.log and
is written last, so that the last line is its verdict. Where tests of the program fail, those of all
other folders are made before the gate is stopped, so that one run tells of each. Where anything
else fails it is stopped at once. Once all has passed, the program lies where a build leaves it, and
`make install` takes it. All crates are green then, and `make check` goes on from there.

usage: gate.py
The environment variable INSTALL=install has the packages installed that the tests need, as root.
Then it fails where pytest is not there all the same.
"""

import filecmp
import os
import re
import shutil
import signal
import subprocess
import sys
import tempfile
import threading
import time

sys.dont_write_bytecode = True
import checks
import proved
from libraries import Libraries
from shares import later
from shown import RUNNING, ran, reaped, shown, tell

ROOT = proved.ROOT
OUT = os.path.join(ROOT, "out")
LOG = os.path.join(OUT, "gate.log")
# The program, and what plays cases to its parts, by the variables that name them to the tests. They
# lie in a folder of their own, since the gate is at work in those of the crates.
TRIED = os.path.join(OUT, "tried")
PROGRAM = "ymodem"
CASES = {"CASES": "port_cases", "LINE_CASES": "line_cases"}
PROGRAMS = {"YMODEM": PROGRAM, **CASES}
# The folders of tests side by side, those of a row in turn: most tests wait for lines and peers.
# What depends on how soon its process answers begins a row.
ROWS = (
    ("line", "disk", "words"),
    ("peers", "explain", "serial", "package"),
    ("sessions",),
    ("judge",),
    ("library", "portable"),
    ("web",),
    ("uboot", "boards"),
)
# These need the library or the page, which are made meanwhile, and these the programs of cases.
TESTS_OF_LIBRARY = {"library", "portable", "web", "uboot", "boards"}
TESTS_OF_CASES = {"line", "library"}
# Of these folders a row makes the tests that are marked so. The others begin before the program is
# there.
MARKED = {"portable": "program", "web": "program"}
# The crate of the library for C.
LIBRARY = "ym_c"
# What the library as files for every processor is made of, and by.
WASM = os.path.join(OUT, "lib", "wasm64-unknown-unknown", "libymodem.a")
# What has time leaves the processors to what all wait for: the proofs of the program, and then its
# tests.
LATER = later(10)

# The lines that are passed on as they come, and the one of a crate that is proved, by which time
# its program is built.
TOLD = re.compile(
    r"rt: \w+(: its tests are)? (proved|NOT PROVED)|rt: \w+ is kept|rt: \w+: trying its must-fail"
    r" edits"
)
PROVED = re.compile(r"rt: (\w+) (proved|is kept: .*)\n")
# What tools/prove.py tells of a crate of the program.
LAST = re.compile(r"proved \d+ of \d+ crates, the last one (\w+) ")


class Gate:
    """`rt ci`, from when it begins."""

    def __init__(self):
        self.lines, self.proved, self.changed = [], set(), threading.Condition()
        self.began = self.child = None
        self.is_over = self.is_given_up = False

    def begin(self):
        if self.child:
            return
        self.began = time.monotonic()
        how = {
            "stdin": subprocess.DEVNULL,
            "stdout": subprocess.PIPE,
            "stderr": subprocess.STDOUT,
            "text": True,
            "errors": "replace",
        }
        # a group of its own, so that all that it started can be stopped
        words = [*LATER, "rt", "ci"]
        self.child = subprocess.Popen(words, cwd=ROOT, start_new_session=True, **how)
        threading.Thread(target=self.follow, daemon=True).start()

    def follow(self):
        with open(LOG, "w", encoding="utf-8", buffering=1) as kept:
            for line in self.child.stdout:
                kept.write(line)
                if TOLD.match(line.rstrip("\n")):
                    tell(
                        "gate, %d:%02d min: %s"
                        % (*divmod(time.monotonic() - self.began, 60), line.rstrip("\n"))
                    )
                found = PROVED.fullmatch(line)
                with self.changed:
                    self.lines.append(line)
                    if found:
                        self.proved.add(found[1])
                        self.changed.notify_all()
        with self.changed:
            self.is_over = True
            self.changed.notify_all()

    def has_proved(self, *names):
        """Waits until these crates are proved. Gives whether they are: it may end before."""
        with self.changed:
            self.changed.wait_for(
                lambda: self.is_over or self.is_given_up or self.proved.issuperset(names)
            )
            return self.proved.issuperset(names)

    def give_up(self):
        with self.changed:
            self.is_given_up = True
            self.changed.notify_all()

    def stop(self):
        if self.child and self.child.poll() is None:
            os.killpg(self.child.pid, signal.SIGTERM)
            self.child.wait()

    def ended(self):
        """Waits for its end, and writes what it took and all that it said. Gives its status."""
        with self.changed:
            self.changed.wait_for(lambda: self.is_over)
        if self.child.returncode is None:
            used = reaped(self.child)
            took = (time.monotonic() - self.began) / 60, used
            tell("the gate took %.1f minutes, and %.1f processor minutes" % took)
        sys.stdout.write("".join(self.lines))
        sys.stdout.flush()
        return self.child.returncode


class Beside:
    """Work that goes on beside the gate. What it says is shown in one piece when it has ended."""

    def __init__(self, name, work, gate):
        self.name, self.work, self.gate, self.has_failed = name, work, gate, False
        self.thread = threading.Thread(target=self.run, daemon=True)
        self.thread.start()

    def run(self):
        try:
            self.has_failed = bool(self.work())
        except OSError as fault:
            tell("%s: %s" % (self.name, fault))
            self.has_failed = True
        if self.has_failed:
            self.gate.give_up()

    def has_ended_well(self):
        self.thread.join()
        return not self.has_failed


def stop_all(gate, beside):
    gate.stop()
    for child in list(RUNNING):
        os.killpg(child.pid, signal.SIGTERM)
    for it in beside:
        it.thread.join()


def are_few(names):
    """Whether at most two of these crates, lowest first, are as high above the others: more are not
    proved side by side."""
    used, heights = proved.crates(), {}
    for name in names:
        heights[name] = 1 + max((heights[it] for it in used[name] if it in heights), default=0)
    return all(list(heights.values()).count(it) <= 2 for it in heights.values())


def heard(child, gate):
    """Tells what is proved of the program, and has the gate begin behind that."""
    left = proved.made_of(PROGRAM)
    for line in child.stderr:
        tell(line.rstrip("\n"))
        found = LAST.match(line)
        if found and found[1] in left:
            left.remove(found[1])
            if are_few(left) and not gate.is_given_up:
                gate.begin()


def program(gate):
    """Has the program's crates proved, and the program built, as far as that can be kept for the
    gate. Gives whether it went well; it is stopped where anything else fails."""
    words, began = [os.path.join(ROOT, "tools", "prove.py"), "first"], time.monotonic()
    how = {"stdin": subprocess.DEVNULL, "stderr": subprocess.PIPE, "text": True, "errors": "replace"}
    child = subprocess.Popen(words, cwd=ROOT, start_new_session=True, **how)
    RUNNING.add(child)
    hearing = threading.Thread(target=heard, args=(child, gate), daemon=True)
    hearing.start()
    while child.poll() is None and not gate.is_given_up:
        time.sleep(0.2)
    if child.returncode is None:
        return False
    hearing.join()
    RUNNING.discard(child)
    tell("the proof of the program took %.1f minutes" % ((time.monotonic() - began) / 60))
    return child.returncode == 0


def packages():
    shown(
        "packages of the tests",
        [os.path.join(ROOT, "tools", "packages.sh"), *os.environ.get("INSTALL", "").split()],
    )


# How the tests of each folder came out, what was said of those that failed, and the folders that
# were skipped since there is no pytest.
COUNTS, FAILED, WITHOUT_PYTEST = [], {}, []
# So many of its last lines are told once more at the end: what the gate proved stands between.
LAST_LINES = 60


def made(name, environment=None, ahead=(), marked=""):
    """Makes the tests of a folder, or those with marks of it, and tells how they came out. Gives the
    status."""
    began = time.monotonic()
    chosen = ["-m", marked + " and not long"] if marked else []
    words = [*ahead, *checks.words_of(*chosen, os.path.join(checks.TESTS, name))]
    status, said, used = ran(words, env=environment)
    title = "tests/" + name
    if status and checks.MISSING in said and not os.environ.get("INSTALL"):
        WITHOUT_PYTEST.append(title)
        return 0
    counts = checks.counts_of(said) or (0, 1, 0)
    COUNTS.append(counts)
    if status:
        FAILED[title] = said
    took = (time.monotonic() - began) / 60, used
    lines = checks.skipped_of(said) if status == 0 else [said.rstrip("\n")]
    title += " (%s)" % marked if marked else ""
    line = "%s: %s; %%.1f minutes, %%.1f processor minutes" % (title, checks.told(counts))
    tell("\n".join([line % took, *lines]))
    return status


def in_all():
    """How the tests of all folders came out."""
    if not WITHOUT_PYTEST:
        return checks.told(map(sum, zip(*COUNTS)))
    skipped = " ".join(sorted(set(WITHOUT_PYTEST)))
    return "skipped, as pytest is not installed (tools/packages.sh install): " + skipped


def beside_proofs(name, installed):
    """Makes the tests of a folder that need no program, beside the proofs."""
    installed.thread.join()
    return made(name, ahead=LATER)


def below_library():
    return [name for name in proved.made_of(LIBRARY) if name != LIBRARY]


def has_proved_below_library(gate):
    return gate.has_proved(*below_library()) and not gate.is_given_up


def beside_library(name, library, gate):
    """Makes those tests of a folder that need the library or the page, and no program."""
    if not library.has_ended_well() or not has_proved_below_library(gate):
        return 0
    return made(name, marked="not " + MARKED[name])


def library_and_page(installed, gate):
    """Makes the library for C and the page in a copy of the tree, where no gate holds the crates'
    folders.

    It waits for the crates below the library, and takes them as the gate proved and built them."""
    if not has_proved_below_library(gate):
        return 0
    below = below_library()
    with tempfile.TemporaryDirectory(prefix="ymodem-lib-") as top:
        copy = os.path.join(top, "tree")
        shutil.copytree(
            ROOT,
            copy,
            ignore=shutil.ignore_patterns(
                "out", ".git", "must-fail", "edits", "plants", "__pycache__"
            ),
        )
        for name in below:
            made = os.path.join("crates", name, "out", "rlib")
            shutil.copytree(os.path.join(ROOT, made), os.path.join(copy, made))
        proved.stamp(copy, below)
        if shown("the library for C", [*LATER, "make", "--no-print-directory", "lib"], copy):
            return 1
        brought(copy, "lib")
        installed.thread.join()
        return page(copy) or portable()


def brought(copy, part):
    """Has what a copy of the tree made stand here, in place of what stood here."""
    shutil.rmtree(os.path.join(OUT, part), ignore_errors=True)
    shutil.copytree(os.path.join(copy, "out", part), os.path.join(OUT, part))


def cannot_make(what, part, *makers):
    """Whether one of these programs is missing. Then nothing is left there, and the tests of it are
    skipped."""
    if all(map(shutil.which, makers)):
        return False
    shutil.rmtree(os.path.join(OUT, part), ignore_errors=True)
    tell("%s not made: that needs %s" % (what, " and ".join(makers)))
    return True


def page(copy):
    """Makes the page, in a copy of the tree."""
    if cannot_make("the page is", "web", "wasm-opt"):
        return 0
    if shown("the page", [*LATER, "make", "--no-print-directory", "web"], copy):
        return 1
    brought(copy, "web")
    return 0


def portable():
    """Makes the library as files for every processor, of the archive for wasm64."""
    if cannot_make("the library as files for every processor is", "portable", "wasm-opt", "wasm2c"):
        return 0
    return shown(
        "the library as files for every processor",
        [os.path.join(ROOT, "tools", "portable.py"), WASM, os.path.join(OUT, "portable")],
    )


class Row:
    """Folders of tests that are made in turn, beside those of other rows."""

    def __init__(self, names, gate, library, environment):
        self.names, self.gate, self.library, self.environment = names, gate, library, environment
        self.failed = []
        self.thread = threading.Thread(target=self.run, daemon=True)
        self.thread.start()

    def run(self):
        try:
            for name in self.names:
                self.make(name)
        except Exception as fault:  # tests that were not made have not passed
            tell("%s: %r" % (", ".join(self.names), fault))
            self.failed.append("a row of tests")

    def make(self, name):
        """Makes the tests of a folder, where what they need comes."""
        if name in TESTS_OF_LIBRARY and not self.library.has_ended_well():
            return
        if name in TESTS_OF_CASES and not are_there(self.gate, *CASES.values()):
            return
        if self.gate.is_given_up:
            return
        if made(name, self.environment, marked=MARKED.get(name, "")):
            self.failed.append("tests/" + name)


def built(name):
    """Where the crate of a program has it."""
    return os.path.join(ROOT, "crates", name, "out", name)


# Several rows may want the same programs.
TAKING = threading.Lock()


def place(name):
    """Where a program lies to be tried."""
    return os.path.join(TRIED, name)


def are_there(gate, *names):
    """Whether these programs are there to be tried. Those that were not proved before the gate are
    waited for, and taken from it."""
    with TAKING:
        lacking = [name for name in names if not os.access(place(name), os.X_OK)]
        if lacking and not gate.has_proved(*lacking):
            return False
        os.makedirs(TRIED, exist_ok=True)
        for name in lacking:
            shutil.copy2(built(name), place(name))
        return True


def are_what_was_tried():
    """Whether the gate built the very programs that were tried."""
    return all(filecmp.cmp(built(it), place(it), shallow=False) for it in PROGRAMS.values())


def tried(gate, before, library):
    """The tests of the program, all of them. Gives the names of those that fail."""
    if not are_there(gate, PROGRAM):
        return []
    environment = {**os.environ, **{it: place(name) for it, name in PROGRAMS.items()}}
    before.thread.join()
    rows = [Row(names, gate, library, environment) for names in ROWS]
    for row in rows:
        row.thread.join()
    return [name for row in rows for name in row.failed]


def judged(gate, beside):
    """Has the program proved, begins the gate and all that goes on beside it, and waits for its
    end. Gives the gate's status, or the names of what failed."""
    installed = Beside("packages", packages, gate)
    made_library = lambda: library_and_page(installed, gate)
    library = Beside("the library for C and the page", made_library, gate)
    works = {
        "tests/memory": lambda: beside_proofs("memory", installed),
        "tests/house": lambda: beside_proofs("house", installed),
        "tests/portable": lambda: beside_library("portable", library, gate),
        "tests/web": lambda: beside_library("web", library, gate),
    }
    beside += [installed, library, *(Beside(name, work, gate) for name, work in works.items())]
    failed = []
    if program(gate):
        gate.begin()
        failed = tried(gate, installed, library)
    elif not gate.is_given_up:
        failed = ["the proof of the program"]
        gate.give_up()
    failed += [it.name for it in beside if not it.has_ended_well()]
    if COUNTS or WITHOUT_PYTEST:
        tell("the tests of all folders: %s" % in_all())
    if not failed and not gate.ended() and not are_what_was_tried():
        failed = ["the comparison of what was tried with what the gate built"]
    return failed or gate.child.returncode


def main():
    if len(sys.argv) > 1:
        sys.exit(__doc__)
    signal.signal(signal.SIGTERM, lambda *_: sys.exit(143))
    os.makedirs(OUT, exist_ok=True)
    gate, beside, began_with = Gate(), [], proved.sums()
    try:
        result = judged(gate, beside)
    except KeyboardInterrupt:
        result = 130
    finally:
        stop_all(gate, beside)
    if isinstance(result, list):
        if gate.is_over:
            gate.ended()
        for name in result:
            for line in FAILED.get(name, "").splitlines()[-LAST_LINES:]:
                tell(line)
        tell("%s failed" % ", ".join(result))
        return 1
    if not result:
        proved.note(PROGRAM)
        proved.note_green(dict(proved.sums().items() & began_with.items()))
        Libraries(PROGRAM).take()
    return result


sys.exit(main())
