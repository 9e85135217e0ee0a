"""Proves the crates that others stand on side by side, by `rt lib`, and keeps what it made.

`rt lib` holds the folders of all crates below its own, so that one at a time works in a tree. So
each crate is proved in a room: the text of the crates that it needs, with their libraries, by
links. What `rt` made there is brought here when it has ended, however it ended. So a build that was
interrupted goes on where it was, and a later one takes what was proved.

A crate waits for those below it. Of those that wait for none the one is begun first that begins the
longest row of crates which stand one on another: a build takes at least as long as that. Such a
crate leads: it gets half of the processors. In a build on four the crates that led on all of them
took about a third more processor time than in another by `rt ci`. Where fewer crates can begin than
there are processors, each gets more of them.

Where nothing but the program is wanted, a library holds its statements alone, as those of `rt ci`
do. Then there is less to read for the proofs above, and nothing is kept for the next check.
"""

import contextlib
import hashlib
import json
import os
import shutil
import signal
import subprocess
import threading
from concurrent.futures import FIRST_COMPLETED, ThreadPoolExecutor, wait

import proved
from proved import CRATES, PROOF_PARTS, ROOT, crates, made_of, sources, sum_of
from shown import reaped

ROOMS = os.path.join(ROOT, "out", "rooms")
# For which text the libraries were made that lie in the crates' out/.
NOTE = os.path.join(ROOT, "out", "libraries.json")
# What `rt lib` makes: the library, and what it kept of its proof.
MADE = ("rlib", "incremental")
# A proof takes at most so much memory, in bytes, but for a few. One by several processors takes as
# much for each.
NEEDS = 2_000_000_000
# The processor seconds that the proof of each crate took once, as bench/gate.py counted them. Only
# the order goes by them. Of another crate they are guessed by its lines.
SECONDS = os.path.join(ROOT, "tools", "seconds.json")
LINES_A_SECOND = 8


def linked(one, other):
    """Another name for a file that nothing writes into, or a copy of it."""
    try:
        os.link(one, other)
    except OSError:
        shutil.copy2(one, other)


def copy(folder, to):
    shutil.copytree(folder, to, copy_function=linked)


def is_there(name):
    return os.path.isfile(os.path.join(CRATES, name, "out", "rlib", "stamp"))


def lines_of(name):
    count = 0
    for path in sources(name, PROOF_PARTS):
        if path.endswith(".rt"):
            with open(path, "rb") as it:
                count += it.read().count(b"\n")
    return count


def seconds_of(names):
    """How long the proofs of these crates take, about."""
    with open(SECONDS, encoding="utf-8") as it:
        took = json.load(it)
    return {it: took.get(it) or 1 + lines_of(it) // LINES_A_SECOND for it in names}


def lanes():
    """How many proofs at a time the processors and the memory hold."""
    found = len(os.sched_getaffinity(0))
    with contextlib.suppress(OSError, ValueError):
        with open("/proc/meminfo", encoding="ascii") as it:
            free = next(line for line in it if line.startswith("MemAvailable:"))
        found = min(found, int(free.split()[1]) * 1024 // NEEDS)
    return max(1, found)


class Libraries:
    """The libraries that these crates stand on, with those that they are themselves where that is
    wanted, and what has to be proved of them."""

    def __init__(self, *tops, are_cut=False, with_tops=False):
        self.used = crates()
        below = {it for top in tops for it in made_of(top) if it != top}
        if with_tops:
            below |= {it for used in self.used.values() for it in used if it in tops}
        self.names = [it for it in made_of(*tops) if it in below]
        self.verb = ["--statements", "lib"] if are_cut else ["lib"]
        version = proved.kit()
        with open(os.path.join(ROOT, "crates.txt"), encoding="utf-8") as it:
            self.lines = {line.partition(":")[0].split()[0]: line for line in it if is_line(line)}
        # The sums of all that each library is made from.
        self.sums = {}
        for name in self.names:
            below = [self.sums[it] for it in self.used[name] if it in self.sums]
            made_from = [version, self.lines[name], sum_of([name], PROOF_PARTS), below]
            self.sums[name] = hashlib.sha256(repr(made_from).encode()).hexdigest()
        self.noted, self.rows = proved.noted(NOTE), self.rows_of()
        self.lock, self.running, self.is_over = threading.Lock(), set(), False
        # The processor minutes that the proofs took.
        self.minutes = 0

    def lacking(self):
        """The names of those that have to be proved, lowest first."""
        left = []
        for name in self.names:
            is_noted = self.noted.get(name) == self.sums[name] and is_there(name)
            if not is_noted or any(it in left for it in self.used[name]):
                left.append(name)
        return left

    def rows_of(self):
        """For each, the seconds of the longest row of crates that begins with it."""
        found, took = {}, seconds_of(self.names)
        for name in reversed(self.names):
            above = [found[it] for it in found if name in self.used[it]]
            found[name] = took[name] + max(above, default=0)
        return found

    def prove(self, hear):
        """Proves what is lacking. Each is heard of when it has ended: its name, its status, and all
        that was said. Gives whether all went well. It ends behind the first that did not."""
        running, most = {}, lanes()
        left = sorted(self.lacking(), key=lambda it: -self.rows[it])
        pool = ThreadPoolExecutor(most)
        try:
            while left or running:
                for name, jobs in self.next(left, running.values(), most):
                    left.remove(name)
                    running[pool.submit(self.make, name, jobs)] = name, jobs
                for ended in wait(running, return_when=FIRST_COMPLETED).done:
                    name, _ = running.pop(ended)
                    status, said = ended.result()
                    hear(name, status, said)
                    if status:
                        return False
        finally:
            self.stop()
            pool.shutdown(cancel_futures=True)
            self.leave()
        return True

    def leave(self):
        """Clears the rooms, behind the last proof."""
        shutil.rmtree(ROOMS, ignore_errors=True)

    def has(self, name):
        """Whether this library is proved from the text that is there."""
        return name in self.names and name not in self.lacking()

    def next(self, left, running, most):
        """The crates to begin now, of those that are left, the longest row first, with the
        processors that each gets."""
        going = [name for name, _ in running]
        ready = self.ready(left, going)
        idle, begun = max(0, most - sum(jobs for _, jobs in running)), []
        if idle and ready and self.leads(ready[0], [*left, *going]):
            jobs = max(idle // len(ready), min(idle, most // 2), 1)
            begun.append((ready.pop(0), jobs))
            idle -= jobs
        count = min(idle, len(ready))
        return begun + [(name, (idle + at) // count) for at, name in enumerate(ready[:count])]

    def ready(self, left, going):
        """Those of the crates that are left which wait for none of these or of those going on."""
        waits = {*left, *going}
        return [name for name in left if waits.isdisjoint(self.used[name])]

    def leads(self, name, others):
        """Whether none of these begins a longer row."""
        return all(self.rows[name] >= self.rows[it] for it in others)

    def make(self, name, jobs):
        """Proves a crate in a room of its own. Gives the status, and what was said."""
        top = os.path.join(ROOMS, name)
        self.furnish(name, top)
        how = {"stdin": subprocess.DEVNULL, "stdout": subprocess.PIPE, "stderr": subprocess.STDOUT}
        how |= {"text": True, "errors": "replace", "start_new_session": True}
        with self.lock:
            if self.is_over:
                return 1, ""
            words = [*proved.RT, *self.verb, "--jobs", str(jobs)]
            child = subprocess.Popen(words, cwd=os.path.join(top, "crates", name), **how)
            self.running.add(child)
        with child.stdout:
            said = child.stdout.read()
        used = reaped(child)
        with self.lock:
            self.minutes += used
            self.running.discard(child)
            bring(name)
            if child.returncode == 0:
                self.keep(name)
        shutil.rmtree(top, ignore_errors=True)
        return child.returncode, said

    def furnish(self, name, top):
        """The room: the text of the crate and of those below, and the libraries of these."""
        shutil.rmtree(top, ignore_errors=True)
        below = made_of(name)
        for it in below:
            to = os.path.join(top, "crates", it)
            for path in sources(it, PROOF_PARTS):
                there = os.path.join(to, os.path.relpath(path, os.path.join(CRATES, it)))
                os.makedirs(os.path.dirname(there), exist_ok=True)
                linked(path, there)
            if it != name:
                copy(os.path.join(CRATES, it, "out", "rlib"), os.path.join(to, "out", "rlib"))
        with open(os.path.join(top, "crates.txt"), "w", encoding="utf-8") as it:
            it.writelines(self.lines[name] for name in below)
        shutil.copy(os.path.join(ROOT, "HANDLES"), top)
        kept = os.path.join(CRATES, name, "out", "incremental")
        if os.path.isdir(kept):
            os.makedirs(os.path.join(top, "crates", name, "out"), exist_ok=True)
            os.rename(kept, os.path.join(top, "crates", name, "out", "incremental"))

    def take(self):
        """Has later builds take the libraries that `rt ci` made here, where no other build made
        one: those of `rt ci` fit one another alone."""
        if not any(map(is_there, self.names)):
            proved.stamp(ROOT, self.names, say=lambda _: None)
            self.keep(*filter(is_there, self.names))

    def keep(self, *names):
        """Notes for which text the libraries were made that lie here."""
        self.noted |= {name: self.sums[name] for name in names}
        with open(NOTE + ".new", "w", encoding="utf-8") as it:
            json.dump(self.noted, it)
        os.replace(NOTE + ".new", NOTE)

    def stop(self):
        """Ends what runs, and begins no other."""
        with self.lock:
            self.is_over = True
            for child in self.running:
                with contextlib.suppress(ProcessLookupError):
                    os.killpg(child.pid, signal.SIGTERM)


def is_line(line):
    return bool(line.strip()) and not line.startswith("#")


def bring(name):
    """Brings what was made of a crate in its room here."""
    made = os.path.join(ROOMS, name, "crates", name, "out")
    for part in MADE:
        here = os.path.join(CRATES, name, "out", part)
        if os.path.isdir(os.path.join(made, part)):
            shutil.rmtree(here, ignore_errors=True)
            os.makedirs(os.path.dirname(here), exist_ok=True)
            os.rename(os.path.join(made, part), here)


def bring_back():
    """Brings what lies in rooms that a run left which was killed."""
    if os.path.isdir(ROOMS):
        for name in os.listdir(ROOMS):
            bring(name)
        shutil.rmtree(ROOMS, ignore_errors=True)
