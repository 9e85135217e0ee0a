"""`ymodem-judge` that is ended by a signal: it leaves no peer, no program and no folder behind, and
its status is that of the signal."""

import contextlib
import os
import signal
import subprocess
import sys
import tempfile

from support.cases import case, cases, sentence
from support.judged import SCRIPT
from support.on_line import ends_with, started
from support.program import LIMIT, PROGRAM, folders, wants_same, write_program
from support.tty_script import left_of
from support.waits import wait_until

# A peer that says nothing, and stays. It tells its number when it has begun.
SILENT = 'echo $$ > "$TOLD"; exec sleep 600'
AT_PORT = ": $PORT; " + SILENT


@contextlib.contextmanager
def judging(kind, peer):
    """`ymodem-judge` in a session of its own, the folder that has its own, and the file in which
    the peer tells its number."""
    with tempfile.TemporaryDirectory(prefix="ymodem-") as top:
        rooms, told = os.path.join(top, "rooms"), os.path.join(top, "told")
        os.mkdir(rooms)
        child = subprocess.Popen(
            [SCRIPT, kind, "--only", "plain", peer],
            env={**os.environ, "YMODEM": PROGRAM, "TMPDIR": rooms, "TOLD": told},
            stdin=subprocess.DEVNULL,
            stdout=subprocess.DEVNULL,
            stderr=subprocess.PIPE,
            start_new_session=True,
        )
        try:
            yield child, rooms, told
        finally:
            for group in (child.pid, number_in(told)):
                with contextlib.suppress(ProcessLookupError):
                    os.killpg(group, signal.SIGKILL)
            child.communicate()


def number_in(file):
    """The number that is told there, or that of no process."""
    with contextlib.suppress(FileNotFoundError), open(file, encoding="ascii") as it:
        return int(it.read() or 2**22)
    return 2**22


def is_there(number):
    return os.path.exists("/proc/%d" % number)


@cases(
    case("judge, ended by SIGTERM", "receiver", SILENT, signal.SIGTERM),
    case("judge, of a sender, ended by SIGTERM", "sender", SILENT, signal.SIGTERM),
    case("judge, of a receiver at a port, ended by SIGTERM", "receiver", AT_PORT, signal.SIGTERM),
    case("judge, whose terminal is gone", "receiver", SILENT, signal.SIGHUP),
    case("judge, that alone is interrupted", "receiver", SILENT, signal.SIGINT),
)
def test_is_ended(kind, peer, by):
    with judging(kind, peer) as (child, rooms, told):
        wait_until(lambda: is_there(number_in(told)), "the peer began")
        child.send_signal(by)
        ended = child.wait(LIMIT), child.stderr.read().decode()
        wants_same({"ended": ended}, {"ended": (-by, "")})
        wants_same({"left": left_of(child.pid)}, {"left": []})
        wait_until(lambda: not is_there(number_in(told)), "the peer was ended")
        wants_same({"rooms": os.listdir(rooms)}, {"rooms": []})


# A program whose cases never end by themselves.
ENDLESS = """#!/bin/sh
case $3 in --list) printf 'one\\ntwo\\nthree\\n' ;; *) exec sleep 600 ;; esac
"""
# `ymodem-judge` to which a signal comes when the first case was handed out, and not yet the others.
ENDED_EARLY = """
import concurrent.futures, os, runpy, signal, sys
pool = concurrent.futures.ThreadPoolExecutor
submit = pool.submit
def submit_and_signal(*words):
    handed = submit(*words)
    os.kill(os.getpid(), signal.SIGTERM)
    return handed
pool.submit = submit_and_signal
sys.argv = sys.argv[1:]
runpy.run_path(sys.argv[0], run_name="__main__")
"""


@sentence("judge, ended by SIGTERM while cases are handed out")
def test_is_ended_early():
    with folders() as (here, rooms):
        program = write_program(os.path.join(here, "ymodem"), ENDLESS)
        words = [sys.executable, "-c", ENDED_EARLY, SCRIPT, "receiver", "true"]
        around = {**os.environ, "YMODEM": program, "TMPDIR": rooms}
        with started(words, here, env=around, start_new_session=True) as judge:
            wants_same({"said": ends_with(judge, -signal.SIGTERM)}, {"said": ("", "")})
            wants_same({"left": left_of(judge.pid)}, {"left": []})
        wants_same({"rooms": os.listdir(rooms)}, {"rooms": []})
