#!/usr/bin/env python3
"""Proves the program and builds it, and shows meanwhile which crate is being proved.

The crates that changed are proved side by side, over what stands in the crates' out/
(tools/libraries.py), and `rt run` proves and builds the program. A program that was proved from the
text as it is, by the gate too, is taken as it lies here.

Where nothing was proved in this tree before, and `rt ci` has kept what it proved of these crates, as
that of some toolchains does, it proves them, in a copy without edits and tests. So what the gate
proved is taken, and what it proves is kept for the gate. The long row, which all others end before,
is proved by a run of its own, to which the rest yields. Where nothing is kept, `rt lib` is quicker.

On a terminal that is one line, rewritten in place; elsewhere it is a line a crate. What `rt` says is
kept in out/build.log, and is shown where it fails. A build that is interrupted goes on where it was.

usage: prove.py [alone|play|check|first]
  alone   proves and builds the program, and keeps less of a first build for the next one
  play    plays the example session, by the program where it is built and no source has changed since,
          else by `rt try`, which proves nothing
  check   proves what changed, and tries unproved the tests of the crates that changed since the last
          green run, of it or of the gate, in them and in the crates of tests that use them
  first   for the gate: has `rt ci` prove the program's crates, whatever stands here, since the gate
          takes nothing but what that kept, and puts the program into out/tried; where nothing is
          kept, it is not there
"""

import contextlib
import difflib
import os
import re
import shutil
import signal
import subprocess
import sys
import tempfile
import threading
import time

sys.dont_write_bytecode = True
import proved
from libraries import Libraries
from proved import CRATES, PROGRAM, ROOT, crates, sources
from shares import later

TOP = os.path.join(CRATES, "ymodem")
# Where the program lies that the gate tries.
TRIED = os.path.join(ROOT, "out", "tried", "ymodem")
LOG = os.path.join(ROOT, "out", "build.log")
# What ends the row of crates that the program waits for longest, and how far the others yield to it.
# `rt ci` begins first what has most lines behind it, but what it has begun keeps its processor.
ROW, BEHIND = ("ym_sending", "ym_receiving"), later(5)
# Two runs prove twice as many crates at once as there are processors, and each goes by all memory
# that is free. So much of it for each processor holds them. One run keeps two processors busy.
HOLDS_TWO, FEW = 3_000_000_000, 2

BEGUN = re.compile(r"rt: chose --jobs \d+ for (\w+)")
PROVED = re.compile(r"rt: (\w+) (?:proved$|is kept: )")
COUNTED = re.compile(r"so far: (\d+) of (\d+) functions checked")
# Lines of a proof that went well.
QUIET = re.compile(r".*: proved$|statements |logic |library |so far: |rt: chose|by-macro: |only=0|crate \w+: modules|rt: the quick pass")


def of_program():
    """The names of the program's crates, lowest first."""
    return proved.made_of("ymodem")


class Shown:
    """A line about what is going on, with the minutes so far: rewritten in place on a terminal, and new only when the crate is another one elsewhere."""

    def __init__(self, to):
        self.to, self.began, self.is_terminal = to, time.monotonic(), to.isatty()
        self.what, self.more, self.told = "", "", None
        self.lock, self.is_over = threading.Lock(), threading.Event()
        if self.is_terminal:
            threading.Thread(target=self.keep_time, daemon=True).start()

    def minutes(self):
        return "%d:%02d min" % divmod(time.monotonic() - self.began, 60)

    def keep_time(self):
        while not self.is_over.wait(1):
            self.draw()

    def tell(self, what, more=""):
        self.what, self.more = what, more
        self.draw()

    def draw(self):
        with self.lock:
            if self.is_over.is_set() or not self.what:
                return
            if self.is_terminal:
                width = os.get_terminal_size(self.to.fileno()).columns or 80
                line = "%s%s, %s" % (self.what, self.more, self.minutes())
                self.to.write("\r\x1b[K" + line[: width - 1])
            elif self.what != self.told:
                self.to.write("%s (%s so far)\n" % (self.what, self.minutes()))
            self.told = self.what
            self.to.flush()

    def clear(self):
        """Takes the line away."""
        with self.lock:
            if self.is_terminal and self.told and not self.is_over.is_set():
                self.to.write("\r\x1b[K")
                self.to.flush()
            self.is_over.set()


def log_file():
    """Where what `rt` says is kept, if that can be written."""
    try:
        os.makedirs(os.path.dirname(LOG), exist_ok=True)
        return open(LOG, "w", encoding="utf-8", buffering=1)
    except OSError:
        return open(os.devnull, "w", encoding="utf-8")


def followed(words, folder, given, hear):
    """Runs a command, and has each line that it says heard. Gives its status. It ends with this script."""
    with open(given, "rb") as it:
        how = {"stdin": it, "stdout": subprocess.PIPE, "stderr": subprocess.STDOUT, "text": True, "errors": "replace"}
        # a group of its own, so that all that it started ends with it
        child = subprocess.Popen(words, cwd=folder, start_new_session=True, **how)
    try:
        for line in child.stdout:
            hear(line)
        return child.wait()
    finally:
        if child.poll() is None:
            os.killpg(child.pid, signal.SIGTERM)
            child.wait()


def failed(shown, said):
    """Tells what rt said of what does not prove, and ends this script."""
    shown.clear()
    sys.stderr.write("".join(it for it in said if not QUIET.match(it)))
    sys.exit("the build failed; all that rt said is in %s" % os.path.relpath(LOG))


def prove_libraries(shown, kept, is_alone):
    """Proves the crates below the program that changed, side by side."""
    libraries, done = Libraries("ymodem", are_cut=is_alone), []
    count = len(libraries.lacking())

    def hear(name, status, said):
        kept.write("== %s\n%s" % (name, said))
        if status:
            failed(shown, said.splitlines(keepends=True))
        done.append(name)
        shown.tell("proved %d of %d crates, the last one %s" % (len(done), count, name))

    if count:
        shown.tell("proving %d crates" % count)
        libraries.prove(hear)


def build_here(shown, kept, is_alone):
    """Proves what changed, over what stands in the crates' out/, and builds."""
    prove_libraries(shown, kept, is_alone)
    names, said = of_program(), []

    def hear(line):
        kept.write(line)
        said.append(line)
        begun, counted = BEGUN.match(line), COUNTED.match(line)
        if begun and begun[1] in names:
            shown.tell("proving crate %d of %d, %s" % (names.index(begun[1]) + 1, len(names), begun[1]))
            said.clear()
        elif line.startswith("rt: waiting for another rt"):
            shown.tell("waiting for another rt that works in this folder")
        elif counted:
            shown.tell(shown.what, ": %s of %s functions" % counted.groups())

    shown.tell("proving the program, over %d crates" % (len(names) - 1))
    if followed([*proved.RT, "run"], TOP, os.path.join(TOP, "stdin"), hear):
        failed(shown, said)


def copied(names, to):
    """A tree of these crates alone, without their edits."""
    with open(os.path.join(ROOT, "crates.txt"), encoding="utf-8") as it:
        lines = [line for line in it if line.partition(":")[0].split()[:1] in [[name] for name in names]]
    with open(os.path.join(to, "crates.txt"), "w", encoding="utf-8") as it:
        it.writelines(lines)
    shutil.copy(os.path.join(ROOT, "HANDLES"), to)
    for it in (file for name in names for file in sources(name)):
        there = os.path.join(to, os.path.relpath(it, ROOT))
        os.makedirs(os.path.dirname(there), exist_ok=True)
        shutil.copy(it, there)


def holds_two_runs():
    """Whether there are processors for two runs side by side, and memory that is free holds them."""
    processors = len(os.sched_getaffinity(0))
    if processors <= FEW:
        return False
    try:
        with open("/proc/meminfo", encoding="ascii") as it:
            free = int(re.search(r"^MemAvailable: *(\d+) kB", it.read(), re.M)[1]) * 1024
    except (OSError, TypeError):
        return False
    return free >= HOLDS_TWO * processors


@contextlib.contextmanager
def proved_ahead(top):
    """Has the long row proved meanwhile. What fails of it the other run tells, which tries it too."""
    with open(os.devnull, "r+b") as nothing:
        how = {"stdin": nothing, "stdout": nothing, "stderr": nothing, "start_new_session": True}
        child = subprocess.Popen(["rt", "ci", *ROW], cwd=top, **how)
    try:
        yield
        child.wait()
    finally:
        if child.poll() is None:
            os.killpg(child.pid, signal.SIGTERM)
            child.wait()


def build_from_nothing(shown, kept, place):
    """Has the program's crates proved side by side, or taken where the gate has kept them, and puts
    the program there."""
    names, said, done = of_program(), [], set()

    def hear(line):
        kept.write(line)
        said.append(line)
        found = PROVED.match(line)
        if found and found[1] in names:
            done.add(found[1])
            shown.tell("proved %d of %d crates, the last one %s" % (len(done), len(names), found[1]))

    shown.tell("proving %d crates" % len(names))
    with tempfile.TemporaryDirectory(prefix="ymodem-build-") as top:
        copied(names, top)
        with proved_ahead(top) if holds_two_runs() else contextlib.nullcontext():
            if followed([*BEHIND, "rt", "ci"], top, os.devnull, hear):
                failed(shown, said)
        os.makedirs(os.path.dirname(place), exist_ok=True)
        shutil.copy2(os.path.join(top, "crates", "ymodem", "out", "ymodem"), place)


def store():
    """Where `rt ci` keeps what it proves, as that of some toolchains does: beside the toolchain. Or
    nothing, where it does not, or cannot."""
    rt = os.path.realpath(shutil.which("rt") or "rt")
    kit = os.path.dirname(os.path.dirname(rt))
    found = kit + "-kept" if os.path.exists(kit + "-kept") else os.path.dirname(kit)
    try:
        with open(rt, "rb") as it:
            keeps = b"-kept" in it.read()
    except OSError:
        return None
    return found if keeps and os.access(found, os.W_OK) else None


def gate_has_kept():
    """Whether `rt ci` has kept what it proved of a crate of the program, of whatever text."""
    found, names = store(), of_program()
    kept = os.listdir(found) if found else ()
    return any(it.startswith("proof-%s-" % name) for it in kept for name in names)


def has_kept():
    """Whether a build has kept what it proved of a crate, for the next one."""
    return any(os.path.isdir(os.path.join(CRATES, it, "out", "incremental")) for it in of_program())


def build(here=False, is_alone=False):
    """Proves what changed, and builds. Whatever goes wrong ends this script."""
    if proved.holds("ymodem"):
        print("%s is proved and built" % os.path.relpath(PROGRAM), file=sys.stderr)
        return
    shown, has_begun = Shown(sys.stderr), has_kept()
    with log_file() as kept:
        if not here and not has_begun and gate_has_kept():
            build_from_nothing(shown, kept, PROGRAM)
        else:
            build_here(shown, kept, is_alone and not has_begun)
    shown.clear()
    # It is newer than its sources now, also where nothing had to be built.
    with contextlib.suppress(OSError):
        os.utime(PROGRAM)
    proved.note("ymodem")
    print("%s is proved and built (%s)" % (os.path.relpath(PROGRAM), shown.minutes()), file=sys.stderr)


def first():
    """Proves and builds for the gate. Whatever goes wrong ends this script."""
    shutil.rmtree(os.path.dirname(TRIED), ignore_errors=True)
    if not store():
        return
    shown = Shown(sys.stderr)
    with log_file() as kept:
        build_from_nothing(shown, kept, TRIED)
    shown.clear()


def is_current():
    """Whether the program is built, and no source has changed since."""
    if not os.access(PROGRAM, os.X_OK):
        return False
    built = os.stat(PROGRAM).st_mtime
    files = [os.path.join(ROOT, "crates.txt"), *(it for name in of_program() for it in sources(name))]
    # a folder is as new as the last file that came to it or went
    folders = {os.path.dirname(it) for it in files[1:]} - {os.path.join(CRATES, name) for name in of_program()}
    return all(os.stat(it).st_mtime <= built for it in (*files, *folders))


def play():
    given = os.path.join(TOP, "stdin")
    if is_current():
        with open(given, "rb") as it:
            return subprocess.run([PROGRAM, "play"], stdin=it, check=False).returncode
    shown = Shown(sys.stderr)
    shown.tell("building without proofs, about a minute")
    with open(given, "rb") as it:
        ran = subprocess.run(["rt", "try", "--", "play"], cwd=TOP, stdin=it, capture_output=True, check=False)
    shown.clear()
    # Its last line says how the program ended; without it, it was not run.
    if b"run=ended status=%d " % ran.returncode not in ran.stderr:
        sys.stderr.buffer.write(ran.stderr)
        return ran.returncode or 1
    print("this run is not proved: make build proves it (minutes the first time)", file=sys.stderr, flush=True)
    sys.stdout.buffer.write(ran.stdout)
    return ran.returncode


def has_tests(name):
    for it in sources(name):
        if it.endswith(".rt"):
            with open(it, encoding="utf-8") as opened:
                if re.search(r"^\s*#\[test\]", opened.read(), re.M):
                    return True
    return False


def is_of_cases(name):
    """Whether a crate is a program for tests: run on its `stdin`, it has to print its `stdout`."""
    return name != "ymodem" and os.path.isfile(os.path.join(CRATES, name, "stdout"))


def tried_for(changed):
    """The crates that are tried where these changed: these, and those of tests and of cases, on which nothing stands, that use one of them."""
    used = crates()
    below = {it for names in used.values() for it in names}
    tops = [it for it in used if it not in below and (has_tests(it) or is_of_cases(it))]
    return [it for it in used if it in changed or (it in tops and not changed.isdisjoint(used[it]))]


def tries(name, is_checked):
    """The commands that try a crate, of which the first proves it, if that is asked for."""
    return [["check"]] * is_checked + [["try", "--test"]] * has_tests(name) + [["try"]] * is_of_cases(name)


def wrong_in(name, words):
    """What is wrong where a command tries a crate, or nothing."""
    folder = os.path.join(CRATES, name)
    is_run = words == ["try"]
    with open(os.path.join(folder, "stdin") if is_run else os.devnull, "rb") as it:
        tried = subprocess.run([*proved.RT, *words], cwd=folder, stdin=it, capture_output=True, check=False)
    if tried.returncode:
        return (tried.stdout + tried.stderr).decode(errors="replace")
    if is_run:
        with open(os.path.join(folder, "stdout"), encoding="utf-8") as it:
            wanted = it.read().splitlines(keepends=True)
        printed = tried.stdout.decode(errors="replace").splitlines(keepends=True)
        return "".join(difflib.unified_diff(wanted, printed, os.path.join(os.path.relpath(folder, ROOT), "stdout"), "printed"))
    return ""


def check():
    used, green, now = crates(), proved.green(), proved.sums()
    changed = {name for name in now if green.get(name) != now[name]}
    build(here=True)
    shown, red, built, names = Shown(sys.stderr), set(), of_program(), tried_for(changed)
    for at, name in enumerate(names, 1):
        for words in tries(name, name in changed and name not in built):
            shown.tell("rt %s: %s, crate %d of the %d that are tried" % (" ".join(words), name, at, len(names)))
            wrong = wrong_in(name, words)
            if wrong:
                red.add(name)
                sys.stderr.write("\n" + wrong)
                break
    shown.clear()
    # A crate is green once its tests are, those in other crates too.
    not_green = red.union(*(used[name] for name in red))
    proved.note_green({name: now[name] for name in changed - not_green})
    told = [" ".join(it for it in used if it in some) or "nothing" for some in (changed, red)]
    print("changed since the last green run: %s; failed: %s" % tuple(told), file=sys.stderr)
    return 1 if red else 0


def main(words):
    alone = lambda: build(is_alone=True)
    verbs = {(): build, ("alone",): alone, ("play",): play, ("check",): check, ("first",): first}
    if tuple(words) not in verbs:
        sys.exit(__doc__)
    signal.signal(signal.SIGTERM, lambda *_: sys.exit(143))
    try:
        return verbs[tuple(words)]()
    except KeyboardInterrupt:
        print("\ninterrupted" + ("" if words == ["play"] else ": the next build goes on where this one was"), file=sys.stderr)
        return 130


if __name__ == "__main__":
    sys.exit(main(sys.argv[1:]))
