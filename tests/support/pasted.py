"""Lines of the pages, as somebody pastes them."""

import contextlib
import os
import re
import signal
import subprocess
import tempfile

from support.program import LIMIT, PROGRAM, ROOT


DEVICE = "/dev/ttyUSB0"
SCRIPT = os.path.join(ROOT, "share", "ymodem-tty")
BLOCK = re.compile(r"^```(sh|console)\n(.*?)^```$", re.M | re.S)
FIRMWARE = "".join("%d\n" % it for it in range(1, 1001)).encode()


def page_text(page):
    with open(os.path.join(ROOT, page), encoding="utf-8") as it:
        return it.read()


def blocks(text):
    """The blocks of a page that have commands: the lines of each."""
    for kind, lines in BLOCK.findall(text):
        yield kind, [it for it in lines.splitlines() if it]


@contextlib.contextmanager
def folder_of(files=()):
    """A new folder that has these files, or none."""
    with tempfile.TemporaryDirectory(prefix="ymodem-") as top:
        for name, data in dict(files).items():
            with open(os.path.join(top, name), "wb") as it:
                it.write(data)
        yield top


@contextlib.contextmanager
def at_hand():
    """An environment in which `ymodem` and `ymodem-tty` are on the path."""
    with tempfile.TemporaryDirectory(prefix="ymodem-") as folder:
        os.symlink(PROGRAM, os.path.join(folder, "ymodem"))
        os.symlink(SCRIPT, os.path.join(folder, "ymodem-tty"))
        yield {**os.environ, "PATH": folder + ":" + os.environ["PATH"], "TERM": "vt100"}


@contextlib.contextmanager
def shell(line, folder, environment, **places):
    """A command in a shell of its own, with these places in the place of what it names."""
    for name, there in ({"device": DEVICE} | NAMES).items():
        line = line.replace(there, places.get(name, there))
    how = {"stdin": subprocess.DEVNULL, "stdout": subprocess.PIPE, "stderr": subprocess.PIPE}
    how |= {"cwd": folder, "env": environment, "start_new_session": True}
    child = subprocess.Popen(["bash", "-c", line], **how)
    try:
        yield child
    finally:
        # all of its session, since it may have left some of it in the background
        with contextlib.suppress(ProcessLookupError):
            os.killpg(child.pid, signal.SIGKILL)
        child.communicate()


NAMES = {"port": "4000", "near": "/tmp/near", "far": "/tmp/far"}


def goes_well(line, child):
    """What a command prints, which has to end well."""
    out, err = child.communicate(timeout=LIMIT)
    assert child.returncode == 0, "%s: status %d: %r" % (line, child.returncode, err)
    return out.decode()
