"""What `ymodem-judge` finds of a peer."""

import json
import os
import shlex
import subprocess
import sys

from support.program import LIMIT, PROGRAM, ROOT


SCRIPT = os.path.join(ROOT, "share", "ymodem-judge")
# A peer of which faults are planted, by their names behind its kind.
PEER = shlex.join([sys.executable, os.path.join(ROOT, "tests", "support", "faulty_peers.py")])
AT_ONCE = "12"
# How many cases each kind of peer is tried by.
COUNTS = {"receiver": 69, "sender": 70}


def ran(kind, command, *words):
    """The status, and the lines that it prints."""
    done = subprocess.run(
        [SCRIPT, kind, "--jobs", AT_ONCE, *words, command],
        stdin=subprocess.DEVNULL,
        capture_output=True,
        env={**os.environ, "YMODEM": PROGRAM},
        text=True,
        timeout=2 * LIMIT,
        check=False,
    )
    assert done.returncode in (0, 1), "status %d: %s" % (done.returncode, done.stderr[-500:])
    return done.returncode, done.stdout.splitlines()


def judged(kind, command, *words):
    """The status, and what is found of each case by its name."""
    status, lines = ran(kind, command, "--json", *words)
    found = [json.loads(line) for line in lines]
    return status, {it["case"]: it for it in found}


def judged_by_all(kind, command):
    """The same, by every case."""
    status, found = judged(kind, command)
    assert len(found) == COUNTS[kind], "%d cases" % len(found)
    return status, found


def told(it):
    return "%(case)s: asks for %(asks)s; did %(did)s after %(seconds)s s: %(finding)s" % it
