#!/usr/bin/env python3
"""Tries the edits of the crates, those of must-fail/ and those of edits/: with each the prover has
to refuse the function that it changes. Of crates that are named all edits are tried. Over all
crates those are left out that say that they take long.

The prover tells a verdict of each function, so many edits share one check. Most are tried on copies
of their functions, all at once (edit_copies.py). The others are made where the functions stand, one
of each function at a time: those of functions of traits, those of several functions, and what the
copies leave open. An edit of anything but a function's body is tried alone. It is a check of the
functions that the edits change, of those that they call, and of no others. Where an edit that is
tried alone names the law that has to be refused for it, it is one of that law, and else of the
whole crate. A function is refused by itself where the prover finds a fault in its own proof, and
not only in a function that it calls. What a shared check leaves open is tried again, at last alone,
so that what is told of an edit is about that edit. An edit fails that is

  still proved        the crate is proved with it
  not its own         only other functions are refused, and not the one that it changes
  cannot be applied   an old text does not stand once in its file
  cannot be read      the crate does not compile with it
  no verdict, not tried

What is settled is kept in out/edits, by the sums of the texts of the crate, of those below it and
of the edit, and by the toolchain: a later run tries only what changed. At the end it tells which
edits took longest, by the lines that tell of their functions. The last line is 'N passed, M
failed', and the status is 1 where one failed.

It calls `rt check` and `rt version` alone, in copies of the crates among the temporary files, and
reads what `rattle check --help` describes: the lines `fn NAME: ..`, the places of errors, and the
last line. The calls that `rt`, a script, makes for its own edits could be taken out of it, but they
are nobody's interface: a new toolchain may rename them, where it keeps its commands.

It begins with what a build or `rt check` kept of the crates, here or in another copy on this
machine. The libraries that are not there are proved too, and the edits of a crate are tried once
its own is there. A crate whose library is there needs no other proof. Over all crates no library is
made that no edit stands on: there, what the edits change is proved as it stands, with what that
calls. So this tells that the edits are refused for what they change, and not that all is proved.

usage: edits.py [--anew] [--every] [--jobs N] [CRATE..]
  --anew      tries also what an earlier run settled
  --every     tries those that take long too, over all crates
  --jobs N    so many checks at a time, of one job each; else as many as there are processors. They
              are fewer where the memory holds no more
"""

import contextlib
import fcntl
import itertools
import os
import re
import shutil
import signal
import subprocess
import sys
import tempfile
import threading
from concurrent.futures import FIRST_COMPLETED, ThreadPoolExecutor, wait

sys.dont_write_bytecode = True

from edit_checks import Checked, Said, copy, take
from edit_copies import Copies, can_be_copied, one_of_each, proofs_of
from edit_crates import CRATES, KEPT, ROOT, Listed, Settled, lines_of, sum_of
from edit_runs import PROVED, Run
from edit_texts import Edit, Unfit
from libraries import NEEDS, Libraries
from proved import made_of

# One folder for each checkout: rt notes each folder where it proves, and so it notes few.
ROOM = os.path.join(tempfile.gettempdir(), "edits-%d-%s" % (os.getuid(), sum_of(ROOT)[:12]))
# Counted up where an edit may be judged otherwise than before: what was kept is tried again then.
JUDGEMENT = 3
TRIED = ("must-fail", "edits")
# So many of the dearest edits are told.
DEAREST = 12


class Trial:
    """The edits of a crate, and how they came out."""

    # The folders that they stand in.
    parts = TRIED
    # Whether most of them may be proved, so that what a run leaves open is tried together again.
    are_proved = False

    def __init__(self, name, listed, version, choice):
        self.name, self.seed = name, os.path.join(ROOM, name, "seed")
        self.is_whole, self.left_out = choice.is_whole, 0
        # The copy that each run begins with.
        self.folder = os.path.join(self.seed, "crates", name)
        self.names = [*listed.below(name), name]
        self.lines = [listed.lines[it] for it in self.names]
        self.settled = Settled(name, self.names, [JUDGEMENT, version, *self.lines], choice.anew)
        self.lock, self.rooms = threading.Lock(), set()
        self.told, self.passed, self.failed = [], 0, 0
        # The processor seconds that each edit took, but for what a check begins with.
        self.took = {}
        # Whether its library is proved from this text, and else the processor seconds that the
        # crate's own proof takes.
        self.is_proved, self.own = False, 0
        self.edits = [it for it in self.found() if self.is_open(it)]
        # Those that can be applied.
        self.fit = []

    def found(self):
        for part in self.parts:
            top = os.path.join(CRATES, self.name, part)
            names = sorted(os.listdir(top)) if os.path.isdir(top) else []
            files = [os.path.join(top, it) for it in names if not it.endswith(".md")]
            edits = [Edit(it) for it in files if os.path.isfile(it)]
            chosen = [it for it in edits if self.is_whole or not it.is_long]
            self.left_out += len(edits) - len(chosen)
            yield from chosen

    def is_open(self, edit):
        """Whether no earlier run settled it. What one settled is counted, and told again."""
        why = self.settled.why(edit)
        if why is not None:
            self.count(edit, why)
        return why is None

    def memory(self):
        """What a check over kept work takes at most, in bytes, as was measured of crates."""
        own = 7 * 10**5 * lines_of([self.name], ".rt") + 14 * 10**4 * lines_of([self.name], ".antt")
        return 7 * 10**8 + own + 6 * 10**4 * lines_of(self.names[:-1], ".rt")

    def count(self, edit, why):
        if why:
            print("FAILED  %s: %s" % (os.path.relpath(edit.file, CRATES), why), flush=True)
        self.failed, self.passed = self.failed + bool(why), self.passed + (not why)

    def settle(self, edit, why="", is_sure=True):
        """Counts an edit: refused, where there is no word why not. It is kept where the next run
        would find the same."""
        with self.lock:
            self.count(edit, why)
            if is_sure:
                self.settled.keep(edit, why)

    @contextlib.contextmanager
    def room(self):
        """A copy of the seed."""
        with self.lock:
            number = next(it for it in itertools.count(1) if it not in self.rooms)
            self.rooms.add(number)
        made = os.path.join(ROOM, self.name, "run-%d" % number)
        try:
            copy(self.seed, made)
            yield os.path.join(made, "crates", self.name)
        finally:
            shutil.rmtree(made, ignore_errors=True)
            with self.lock:
                self.rooms.discard(number)

    def make_seed(self):
        """The crates that its checks read, with what was kept of them. Gives whether that is all."""
        left_out = shutil.ignore_patterns("out", "plants", *TRIED)
        for name in self.names:
            to = os.path.join(self.seed, "crates", name)
            shutil.copytree(os.path.join(CRATES, name), to, ignore=left_out)
        with open(os.path.join(self.seed, "crates.txt"), "w", encoding="utf-8") as it:
            it.write("".join(line + "\n" for line in self.lines))
        handles = os.path.join(ROOT, "HANDLES")
        if os.path.isfile(handles):
            shutil.copy2(handles, self.seed)
        libraries, to = self.names[:-1], os.path.join(self.seed, "crates")
        is_kept = take(os.path.join(CRATES, self.name), "incremental", self.folder)
        taken = [take(os.path.join(CRATES, it), "rlib", os.path.join(to, it)) for it in libraries]
        # Libraries that were built over others cannot be used.
        for name in libraries if not all(taken) else ():
            shutil.rmtree(os.path.join(to, name, "out"), ignore_errors=True)
        return is_kept and all(taken)

    def begin(self):
        """Has the crate proved as it stands, where each run begins. Gives the runs."""
        is_kept = self.make_seed()
        if self.settled.now() != self.settled.sum:
            return self.left_untried("its crate, or one below it, changed meanwhile", self.edits)
        self.fit = [it for it in self.edits if self.can_be_applied(it)]
        needs_proof = self.fit and not (self.is_proved and is_kept)
        if needs_proof and not self.is_proved_here(self.fit):
            return []
        proofs = proofs_of(self.name, self.folder)
        copied = [it for it in self.fit if can_be_copied(it, proofs) and not self.are_proved]
        placed = [] if self.are_proved else one_of_each([it for it in self.fit if it not in copied])
        self.others = [it for it in self.fit if it not in (*copied, *placed)]
        has_some = copied or placed
        return [Copies(self, copied, placed)] if has_some else self.in_place([], self.told)

    def is_proved_here(self, edits):
        """Proves what these edits change as it stands, and has the prover tell of it. Gives whether
        it is proved; where it is not, these edits are not tried."""
        ran, seconds = self.checked(self.folder, edits)
        if Checked.is_over:
            return False
        self.own += seconds
        self.tell("its own proof", seconds)
        said = Said(self.name, ran.text)
        self.told = list(said.states)
        if ran.status:
            why = "what it changes is not proved without it: %s" % said.first_error()
            self.left_untried(why, edits)
        return not ran.status

    def checked(self, folder, edits, copies=()):
        """A check of what these edits change, and of these copies, with the processor seconds that
        it took. It is one of the whole crate where an edit may change more than its function, and
        where the prover cannot be told which functions these are."""
        wanted = {it.stands for it in copies} | {it for edit in edits for it in edit.stands()}
        wanted = () if "" in wanted else sorted(wanted)
        ran = Checked(folder, wanted)
        seconds = ran.seconds
        if not Checked.is_over and (ran.is_killed or ran.finds_none()):
            ran = Checked(folder, () if ran.finds_none() else wanted)
            seconds += ran.seconds
        return ran, seconds

    def note(self, edit, seconds):
        with self.lock:
            self.took[edit] = self.took.get(edit, 0) + seconds

    def left_untried(self, why, edits):
        for edit in edits:
            self.settle(edit, "not tried: %s" % why, False)
        return []

    def can_be_applied(self, edit):
        try:
            edit.look(self.folder)
            return True
        except Unfit as why:
            self.settle(edit, "cannot be applied: %s" % why)
            return False

    def in_place(self, edits, told):
        """The runs of these edits, and of those that no copy can have, where the functions stand.
        The prover told of these functions."""
        with self.lock:
            edits, self.others = [*edits, *self.others], []
        self.told = self.told or told
        if edits and not self.told and not self.is_proved_here(edits):
            return []
        runs = self.together([it for it in edits if self.is_told(it)])
        for number, run in enumerate(runs, 1):
            run.what = "run %d of %d" % (number, len(runs))
        return runs

    def is_told(self, edit):
        """Whether the prover tells of the functions that it changes."""
        edit.names = edit.all_names(self.name, self.told)
        if edit.functions and not edit.names:
            name = edit.functions[0].path[-1]
            self.settle(edit, "not its own: the prover tells of no function %s there" % name, False)
            return False
        return True

    def together(self, edits):
        """Runs with all these edits."""
        runs = []
        for edit in edits:
            if not any(it.takes(edit) for it in runs):
                runs.append(Run(self, edit))
        return runs

    def tell(self, what, seconds):
        print("%s: %s, %.1f s" % (self.name, what, seconds), flush=True)

    def end(self):
        shutil.rmtree(os.path.dirname(self.seed), ignore_errors=True)


def free_memory():
    """What may be taken of the memory, under the limit of the control group."""
    found = []
    for file, pattern, unit in (
        ("/proc/meminfo", r"MemAvailable:\s+(\d+)", 1024),
        ("/sys/fs/cgroup/memory.max", r"(\d+)", 1),
    ):
        with contextlib.suppress(OSError, TypeError):
            with open(file, encoding="utf-8") as it:
                found.append(unit * int(re.search(pattern, it.read())[1]))
    return 0.85 * min(found, default=4 * 10**9)


class Lanes:
    """The proofs of libraries and the runs of trials, side by side, by one job each: a second job
    of a proof costs processor time, and there is enough else to do.

    Libraries go ahead, the one first that begins the longest row of crates. The runs of a crate
    begin once its library is there, those of the dearest crate first."""

    def __init__(self, trials, count, with_tops):
        self.count, self.memory = count, free_memory()
        self.libraries = Libraries(*(it.name for it in trials), with_tops=with_tops)
        rows = self.libraries.rows
        self.unproved = sorted(self.libraries.lacking(), key=lambda it: -rows[it])
        self.needs = {it: it.memory() for it in trials}
        dearest = sorted(trials, key=lambda it: -len(it.edits) * self.needs[it])
        self.places = {it: place for place, it in enumerate(dearest)}
        self.left = [(it, it) for it in dearest]
        # What goes on: the libraries, and the trials whose runs these are.
        self.proofs, self.runs = {}, {}

    def make(self):
        """Makes all. Each trial is ended behind its last run."""
        pool = ThreadPoolExecutor(self.count)
        try:
            while self.begin(pool):
                going = [*self.proofs, *self.runs]
                for ended in wait(going, return_when=FIRST_COMPLETED).done:
                    self.end(ended)
        finally:
            Checked.stop()
            self.libraries.stop()
            pool.shutdown(cancel_futures=True)
            self.libraries.leave()

    def begin(self, pool):
        """Begins what has room. Gives whether anything goes on."""
        for name in self.libraries.ready(self.unproved, self.proofs.values()):
            if self.has_room(NEEDS):
                self.unproved.remove(name)
                self.proofs[pool.submit(self.libraries.make, name, 1)] = name
        waits = {*self.unproved, *self.proofs.values()}
        for trial, work in [it for it in self.left if waits.isdisjoint(it[0].names)]:
            if self.has_room(self.needs[trial]):
                self.left.remove((trial, work))
                trial.is_proved = self.libraries.has(trial.name)
                self.runs[pool.submit(work.begin)] = trial
        return self.proofs or self.runs

    def has_room(self, need):
        going = len(self.proofs) + len(self.runs)
        held = NEEDS * len(self.proofs) + sum(self.needs[it] for it in self.runs.values())
        return going < self.count and (not going or held + need <= self.memory)

    def end(self, ended):
        if ended in self.proofs:
            name, (status, _) = self.proofs.pop(ended), ended.result()
            print("%s: its library%s" % (name, " is not proved" * bool(status)), flush=True)
            if status:
                # Of one that is not proved, the own proofs of those above it tell.
                self.unproved = [it for it in self.unproved if name not in made_of(it)]
            return
        trial = self.runs.pop(ended)
        self.left += [(trial, it) for it in ended.result()]
        self.left.sort(key=lambda it: self.places[it[0]])
        if trial not in [*self.runs.values(), *(it for it, _ in self.left)]:
            trial.end()


class Choice:
    """Which edits are tried, and how many checks at a time, by the words of a call."""

    def __init__(self, names, anew=False, is_whole=True, lanes=1, is_named=True):
        # Whether also what was settled, and also those that take long, and whether somebody named
        # the crates.
        self.names, self.anew, self.is_whole, self.lanes = names, anew, is_whole, lanes
        self.is_named = is_named

    @classmethod
    def of(cls, words, listed):
        anew, every, lanes = "--anew" in words, "--every" in words, len(os.sched_getaffinity(0))
        words = [it for it in words if it not in ("--anew", "--every")]
        if "--jobs" in words:
            at = words.index("--jobs")
            if not re.fullmatch("[1-9][0-9]?", "".join(words[at + 1 : at + 2])):
                sys.exit(__doc__)
            lanes, words = int(words[at + 1]), words[:at] + words[at + 2 :]
        lacking = [it for it in words if it not in listed.lines]
        if lacking:
            sys.exit("%s: crates.txt lists no such crate\n\n%s" % (lacking[0], __doc__))
        is_named = bool(words)
        return cls(words or list(listed.lines), anew, every or is_named, lanes, is_named)


def used():
    """The processor minutes of all that has ended."""
    found = os.times()
    return (found.children_user + found.children_system) / 60


def tried(listed, choice, kind=Trial):
    """Tries the edits that are chosen. Gives the trials, which are of this kind."""
    version = subprocess.run(["rt", "version"], capture_output=True, text=True, check=True).stdout
    os.makedirs(KEPT, exist_ok=True)
    with open(os.path.join(KEPT, "lock"), "w", encoding="utf-8") as lock:
        # One at a time in a checkout.
        fcntl.flock(lock, fcntl.LOCK_EX)
        shutil.rmtree(ROOM, ignore_errors=True)
        os.makedirs(ROOM, 0o700)
        try:
            trials = [kind(name, listed, version, choice) for name in choice.names]
            is_open = [it for it in trials if it.edits]
            made = Lanes(is_open, choice.lanes, with_tops=choice.is_named)
            made.make()
            if made.libraries.minutes:
                print("the libraries: %.1f processor minutes" % made.libraries.minutes, flush=True)
            return trials
        finally:
            shutil.rmtree(ROOM, ignore_errors=True)


def tell_dearest(took):
    """Tells which edits took longest, and what all together did."""
    if not took:
        return
    told = len(took), sum(seconds for _, seconds in took)
    print("%d edits took %.0f processor seconds; the dearest:" % told)
    for edit, seconds in sorted(took, key=lambda it: -it[1])[:DEAREST]:
        print("%8.1f  %s" % (seconds, os.path.relpath(edit.file, CRATES)))


def main(words):
    listed = Listed()
    choice = Choice.of(words, listed)
    signal.signal(signal.SIGTERM, lambda *_: sys.exit(143))
    try:
        trials = tried(listed, choice)
    except KeyboardInterrupt:
        return 130
    tell_dearest([it for trial in trials for it in trial.took.items()])
    own = sum(it.own for it in trials) / 60
    print("%.1f processor minutes, %.1f of them for the crates' own proofs" % (used(), own))
    left_out = sum(it.left_out for it in trials)
    if left_out:
        print("%d that take long were left out: --every tries them too" % left_out)
    failed = sum(it.failed for it in trials)
    print("%d passed, %d failed" % (sum(it.passed for it in trials), failed))
    return 1 if failed else 0


if __name__ == "__main__":
    sys.exit(main(sys.argv[1:]))
