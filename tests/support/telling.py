"""What the checks share of what the program tells."""

import contextlib
import os

from support.program import PROGRAM
from support.terminal import UnderTerminal


DATA = bytes(range(256)) * 20
FILE = [("first.bin", DATA)]
FAULT = "fault: device\n"


def listening(port):
    return "listening on 127.0.0.1:%d\n" % port


def connecting(port):
    return "connecting to 127.0.0.1:%d\n" % port


def coming(name, length):
    return "receiving %s, %d bytes\n" % (name, length)


@contextlib.contextmanager
def under_terminal(*words):
    """The program under a pseudo terminal."""
    child = UnderTerminal([PROGRAM, *map(str, words)])
    try:
        yield child
    finally:
        child.stop()


def line(text):
    """A line as a terminal gets it."""
    return text.encode() + b"\r\n"


def missing(here):
    return os.path.join(here, "missing")
