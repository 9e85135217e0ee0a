"""Commands that run side by side, and what is told of each in one piece when it has ended."""

import os
import subprocess
import threading
import time

from proved import ROOT

PRINTING = threading.Lock()
# What runs beside the gate, so that it can be stopped.
RUNNING = set()


def tell(text):
    with PRINTING:
        print(text, flush=True)


def reaped(child):
    """Waits for the end of a child that this program alone waits for. Gives the processor minutes
    that it and its children used."""
    _, status, used = os.wait4(child.pid, 0)
    child.returncode = os.waitstatus_to_exitcode(status)
    return (used.ru_utime + used.ru_stime) / 60


def ran(words, folder=ROOT, env=None):
    """Runs a command. Gives its status, what it said, and the processor minutes that it took."""
    how = {"stdin": subprocess.DEVNULL, "stdout": subprocess.PIPE, "stderr": subprocess.STDOUT}
    how |= {"text": True, "errors": "replace", "start_new_session": True}
    child = subprocess.Popen(words, cwd=folder, env=env, **how)
    RUNNING.add(child)
    with child.stdout as out:
        said = out.read()
    used = reaped(child)
    RUNNING.discard(child)
    return child.returncode, said, used


def shown(title, words, folder=ROOT):
    """Runs a command, and tells what it said, and what it took, when it has ended. Gives its
    status."""
    began = time.monotonic()
    status, said, used = ran(words, folder)
    minutes = (time.monotonic() - began) / 60
    tell("%s\n%s" % (title, said.rstrip("\n")))
    tell("%s took %.1f minutes, and %.1f processor minutes" % (title, minutes, used))
    return status
