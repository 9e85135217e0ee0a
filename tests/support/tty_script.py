"""`ymodem-tty` as it is started, alone and by terminal programs, on a path without `socat`."""

import atexit
import contextlib
import os
import random
import shutil
import signal
import subprocess
import tempfile

from support.program import LIMIT, PROGRAM, ROOT


SCRIPT = os.path.join(ROOT, "share", "ymodem-tty")
CHANCE = random.Random(17)
FILES = [
    ("one.bin", CHANCE.randbytes(5000)),
    ("none", b""),
    ("control bytes", bytes(range(256)) * 5),
]
NAMES = [name for name, _ in FILES]
SEND, RECEIVE = [SCRIPT, "send"], [SCRIPT, "receive"]
CANCEL = b"\x18\x18\x18\x18"
# Begins a session of which this terminal is the controlling one, as a login does.
LOGIN = ["setsid", "--ctty", "--wait"]


def path_without(*names):
    """A path on which all commands are but these."""
    folder = tempfile.mkdtemp(prefix="ymodem-path-")
    atexit.register(shutil.rmtree, folder, True)
    for place in filter(os.path.isdir, os.get_exec_path()):
        for it in os.scandir(place):
            at = os.path.join(folder, it.name)
            if it.name not in names and not os.path.lexists(at) and os.access(it.path, os.X_OK):
                os.symlink(it.path, at)
    return folder


# Nothing of it may need `socat`.
ENVIRONMENT = {**os.environ, "YMODEM": PROGRAM, "TERM": "vt100", "PATH": path_without("socat")}
# ymodem-tty is on the path, too.
AT_HAND = {**ENVIRONMENT, "PATH": os.path.dirname(SCRIPT) + ":" + ENVIRONMENT["PATH"]}


@contextlib.contextmanager
def piped(words, folder, environment=None):
    """A program on two pipes, in a folder and a session of its own. In the end all of the session
    is killed: a terminal program may drop the last answer of a transfer, and then `ymodem sb` waits
    on, since a pipe is never quiet."""
    pipe = subprocess.PIPE
    child = subprocess.Popen(
        words,
        cwd=folder,
        env=environment or ENVIRONMENT,
        stdin=pipe,
        stdout=pipe,
        stderr=pipe,
        start_new_session=True,
    )
    try:
        yield child
    finally:
        with contextlib.suppress(ProcessLookupError):
            os.killpg(child.pid, signal.SIGKILL)
        child.communicate()


@contextlib.contextmanager
def pseudo_terminal():
    """Both ends of one, as the system makes it."""
    ends = os.openpty()
    try:
        yield ends
    finally:
        for end in ends:
            os.close(end)


def told(child):
    """The status of a child, and what it wrote to standard error. Its line is left alone."""
    status = child.wait(LIMIT)
    return status, child.stderr.read().decode()


def wants_status(who, child, status):
    got = told(child)
    assert got[0] == status, "%s ended with status %d, wanted %d: %r" % (
        who,
        got[0],
        status,
        got[1],
    )
    return got[1]


def session_of(pid):
    with open("/proc/%d/stat" % pid) as it:
        fields = it.read().rpartition(")")[2].split()
    return None if fields[0] == "Z" else int(fields[3])


def processes_of(session):
    """The processes of a session, each with its command."""
    found = {}
    for name in os.listdir("/proc"):
        with contextlib.suppress(FileNotFoundError, ProcessLookupError):
            if name.isdigit() and session_of(int(name)) == session:
                with open("/proc/%s/cmdline" % name, encoding="utf-8") as it:
                    found[int(name)] = it.read().replace("\0", " ")
    return found


def left_of(session):
    """The commands of the processes of a session."""
    return list(processes_of(session).values())


def runs(session):
    """The processes of a session in which the program runs."""
    return [pid for pid, it in processes_of(session).items() if " sb " in it or " rb" in it]


def is_running(session):
    """Whether the program runs."""
    return bool(runs(session))
