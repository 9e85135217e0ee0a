"""Checks of a crate, in copies, and what they say of each function."""

import contextlib
import fcntl
import os
import re
import shutil
import subprocess
import threading
import time

from proved import RT
from rt_once import UNWARNED

STATE = re.compile(r"^fn (\S+): (.*)$", re.M)
FAULT = re.compile(
    r"^(?:\./)?proofs/(\S+)/(?:Answers|Proof|Invariants)\.antt:\d+:\d+: error: (.*)$", re.M
)
VERDICT = re.compile(r"^(logic=|only=\d|rattle: no verdict)", re.M)
# The crate does not compile, or a text of src/ or specs/ is no statement: where it is only false,
# the error names what it stands in.
UNREAD = re.compile(
    r"^(?:\./)?(?:src|specs)/\S+:\d+:\d+: "
    r"error(?:\[.*|: (?!`).*|: .*(?:is not in scope|has no field|cannot continue).*)$",
    re.M,
)


class Said:
    """What a check said of each function."""

    def __init__(self, crate, text):
        self.text, self.states = text, dict(STATE.findall(text))
        # An error that only depends on another one is not the function's own.
        own = [path for path, why in FAULT.findall(text) if not re.search(r"\bdepends? on\b", why)]
        self.faulty = {"::".join([crate, *path.split("/")]) for path in own}
        self.has_verdict = bool(self.states and VERDICT.search(text))

    def refuses(self, names):
        """Whether one of these functions is refused, and not only for a function that it calls."""
        states = [self.states.get(it, "") for it in names]
        refused = [it for it in states if it.startswith(("not proved", "no proof"))]
        is_faulty = not self.faulty.isdisjoint(names)
        return any(is_faulty or "it calls" not in it or "did not prove" in it for it in refused)

    def waits(self, names):
        """Whether one of these calls a function that is refused."""
        return any("it calls" in self.states.get(it, "") for it in names)

    def is_unread(self, status):
        """Whether the prover did not come to judge the crate, as it could not be read."""
        return bool(UNREAD.search(self.text)) or not self.has_verdict and status in (1, 2)

    def refused(self):
        return [it for it in self.states if self.refuses([it])]

    def first_error(self):
        unread, lines = UNREAD.search(self.text), self.text.split("\n")
        told = [it for it in lines if re.search(r"\berror\b", it)]
        told = told or [it for it in lines if it.startswith("rt")] or lines
        return (unread[0] if unread else told[0]).strip()[:200]


def counted(edits):
    return "1 edit" if len(edits) == 1 else "%d edits" % len(edits)


# The line that tells of a function whose proof was just checked.
CHECKED = re.compile(r"checked (\S+), \d+ of \d+$")


def shared_out(seconds, heard):
    """The processor seconds of each function that a check told of, by the times at which its lines
    were heard: a proof is at work between the line ahead of its own and that. Those of a check that
    took no time are none."""
    found, began, ended = {}, heard[0][0], heard[-1][0]
    for (ahead, _), (time_of, line) in zip(heard, heard[1:]):
        told = CHECKED.match(line)
        if told and ended > began:
            found[told[1]] = (time_of - ahead) / (ended - began) * seconds
    return found


class Checked:
    """A check of the crate in this folder, or of these functions of it, by one job: its status,
    what it said, and the processor seconds that it took, in all and for each function."""

    running, is_over = set(), False

    def __init__(self, folder, functions=()):
        if self.is_over:
            raise SystemExit
        how = {"stdin": subprocess.DEVNULL, "stdout": subprocess.PIPE, "stderr": subprocess.STDOUT}
        how |= {"text": True, "errors": "replace"}
        heard, self.is_of_some = [(time.monotonic(), "")], bool(functions)
        only = [word for name in functions for word in ("--only", name)]
        words = [*RT, UNWARNED, "check", "--jobs", "1", *only]
        child = subprocess.Popen(words, cwd=folder, **how)
        self.running.add(child)
        with child.stdout:
            heard += [(time.monotonic(), line) for line in child.stdout]
        _, status, used = os.wait4(child.pid, 0)
        self.running.discard(child)
        child.returncode = self.status = os.waitstatus_to_exitcode(status)
        # Most likely for memory: by a signal, or as rt or a shell tell of it.
        self.is_killed = self.status in (-9, 137, 247)
        self.seconds = used.ru_utime + used.ru_stime
        self.took = shared_out(self.seconds, [*heard, (time.monotonic(), "")])
        self.text = "".join(line for _, line in heard)

    def finds_none(self):
        """Whether the prover found no function of one of the names that it was given."""
        return self.is_of_some and self.status == 2 and not STATE.search(self.text)

    def seconds_of(self, names):
        """The processor seconds of these functions."""
        return sum(self.took.get(it, 0) for it in names)

    @classmethod
    def stop(cls):
        """Ends the checks that run, and begins no other."""
        cls.is_over = True
        for child in list(cls.running):
            child.terminate()


def link(one, other):
    """Copies a file of what rt keeps: by a link where rt replaces it and never writes into it."""
    with contextlib.suppress(OSError):
        if one.endswith(".oantt") or "/out/rlib/" in one:
            return os.link(one, other)
    return shutil.copy2(one, other)


def copy(folder, to):
    shutil.copytree(folder, to, symlinks=True, copy_function=link)


# Of several crates that begin at once each takes the libraries below it, most of them the same.
TAKING = threading.Lock()
# So many seconds an rt is waited for that is at work in the folder of a crate. What cannot be taken
# is proved again, with all that stands below.
PATIENCE, ASKS_EVERY = 300, 1


def hold(folder):
    """Locks an open folder as rt does, once no other one has it, or fails."""
    until = time.monotonic() + PATIENCE
    while True:
        try:
            return fcntl.flock(folder, fcntl.LOCK_EX | fcntl.LOCK_NB)
        except BlockingIOError:
            if time.monotonic() >= until:
                raise
            time.sleep(ASKS_EVERY)


def take(crate, part, to):
    """Takes what `rt check` kept in the folder of a crate, once no rt is at work there. Gives
    whether it could."""
    made = os.path.join(to, "out", part)
    with TAKING:
        held = os.open(crate, os.O_RDONLY)
        try:
            hold(held)
            copy(os.path.join(crate, "out", part), made)
            return True
        except (OSError, shutil.Error):
            shutil.rmtree(made, ignore_errors=True)
            return False
        finally:
            os.close(held)
