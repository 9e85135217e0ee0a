"""picocom at work, as somebody who types at it uses it, and the README's line that starts it."""

import contextlib
import os
import re

from support.program import ROOT
from support.terminal import UnderTerminal


# The keys, behind Control-A, that begin a transfer, and by which it is left.
KEY_TO_SEND, KEY_TO_RECEIVE = b"\x13", b"\x12"
KEY_TO_SET_BACK, KEY_TO_LEAVE_SET = b"\x18", b"\x11"


def recipe(words):
    """What the README says to type for a serial line."""
    with open(os.path.join(ROOT, "README.md"), encoding="utf-8") as it:
        found = re.findall(r"^%s /dev/ttyUSB0$" % words, it.read(), re.M)
    assert len(found) == 1, "the README has %d lines %s" % (len(found), words)
    return found[0]


@contextlib.contextmanager
def picocom(typed, folder, environment, left_by=KEY_TO_SET_BACK):
    """picocom, started in a folder by a line of a shell: its terminal, once it is ready. It is left
    as its user leaves it, by this key."""
    shown = UnderTerminal(["sh", "-c", typed], cwd=folder, env={**environment, "HOME": folder})
    try:
        shown.sees(b"Terminal ready")
        yield shown
        shown.type(b"\x01" + left_by)
        shown.sees(b"Thanks for using picocom")
        assert shown.ended() == 0, "picocom did not end well"
    finally:
        shown.stop()
        with contextlib.suppress(FileNotFoundError):
            os.remove(os.path.join(folder, ".picocom_history"))


def transfer(shown, key, typed):
    """Begins a transfer by its key, types these words for it, and waits until it has gone well."""
    shown.type(b"\x01" + key)
    shown.sees(b"*** file: ")
    shown.type(typed + b"\r")
    shown.sees(b"exit status: 0")
