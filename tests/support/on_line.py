"""Programs that are started on a terminal, and how they end."""

import contextlib
import fcntl
import os
import subprocess
import threading

from support.program import LIMIT, wants_same
from support.terminal import joined


@contextlib.contextmanager
def started(words, folder, **how):
    """A program in a folder, with what it writes kept, unless that goes elsewhere."""
    how = {"stdin": subprocess.DEVNULL, "stdout": subprocess.PIPE, "stderr": subprocess.PIPE} | how
    child = subprocess.Popen(words, cwd=folder, **how)
    try:
        yield child
    finally:
        if child.poll() is None:
            child.kill()
        for stream in (child.stdin, child.stdout, child.stderr):
            if stream:
                stream.close()
        child.wait()


@contextlib.contextmanager
def peer(words, folder, end):
    """A program of lrzsz on two pipes, joined to this end of a plug."""
    with started(words, folder, stdin=subprocess.PIPE) as child:
        joined(end, child.stdin.fileno())
        joined(child.stdout.fileno(), end)
        yield child


def ends_with(child, status):
    """What it wrote, where it ends with this status."""
    out, err = [], []
    readers = [
        threading.Thread(target=lambda at=at, into=into: into.append(at.read()))
        for at, into in ((child.stdout, out), (child.stderr, err))
        if at
    ]
    for reader in readers:
        reader.start()
    got = child.wait(LIMIT)
    for reader in readers:
        reader.join(LIMIT)
    out, err = (b"".join(it).decode() for it in (out, err))
    assert got == status, "status %d, wanted %d: %r %r" % (got, status, out, err)
    return out, err


def lock(path):
    end = os.open(path, os.O_RDWR | os.O_NOCTTY)
    fcntl.flock(end, fcntl.LOCK_EX)
    return end


def says(child, status, out, err=""):
    wants_same({"said": ends_with(child, status)}, {"said": (out, err)})
