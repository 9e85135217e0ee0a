"""A cable between two ends, as terminals of this machine: a pseudo terminal for an end that opens
it by its path, and what carries the bytes."""

import contextlib
import os
import subprocess
import termios
import threading
import time
import tty

from support.program import LIMIT
from support.terminal import ready


BITS = 10


def settings(path):
    """All settings of a terminal, in one word of `stty`."""
    return subprocess.run(
        ["stty", "-F", path, "-g"], capture_output=True, text=True, check=True
    ).stdout.strip()


def set_for_ticks(path):
    """Sets a terminal as `sb` and `rb` need it."""
    subprocess.run(
        ["stty", "-F", path, "raw", "-echo", "clocal", "min", "0", "time", "1"], check=True
    )


def ticking(end):
    """Sets the terminal at this descriptor alike, with no program."""
    tty.setraw(end)
    kept = termios.tcgetattr(end)
    kept[2] |= termios.CLOCAL
    kept[6][termios.VMIN], kept[6][termios.VTIME] = 0, 1
    termios.tcsetattr(end, termios.TCSANOW, kept)


class Plug:
    """One pseudo terminal: its path, the end that a program opens by it, and the end that the cable
    has."""

    def __init__(self):
        self.inner, self.outer = os.openpty()
        self.path = os.ttyname(self.outer)
        # bytes that come before a program has set it are not changed, and not sent back
        tty.setraw(self.outer)
        self.lock = threading.Lock()
        self.is_in = True

    def pull(self):
        """Hangs up: whoever has it open finds the end of the line."""
        with self.lock:
            if self.is_in:
                self.is_in = False
                os.close(self.outer)
                os.close(self.inner)


@contextlib.contextmanager
def plug():
    it = Plug()
    try:
        yield it
    finally:
        it.pull()


class Cable(threading.Thread):
    """Carries bytes between two plugs, each way at this many bits a second where that is given, and
    keeps what it carried. It is cut when so many bytes went there. Where it is held at a number of
    them, it stands still that way from then on, and `is_held` is set, until `go_on` is."""

    def __init__(self, near, far, baud=None, cut_at=None, hold_at=None):
        super().__init__(daemon=True)
        self.near, self.far, self.baud, self.cut_at, self.hold_at = near, far, baud, cut_at, hold_at
        self.there, self.back = bytearray(), bytearray()
        self.over, self.is_held, self.go_on = (threading.Event() for _ in range(3))

    def run(self):
        while not self.over.is_set():
            try:
                for end in ready(self.ends(), 0.05):
                    self.carry(end)
            except (OSError, ValueError):
                return  # a plug was pulled

    def ends(self):
        """The ends from which something is carried now."""
        ways = [self.near.inner, self.far.inner]
        if self.hold_at is not None and not self.go_on.is_set() and len(self.there) >= self.hold_at:
            self.is_held.set()
            return ways[1:]
        return ways

    def most(self, is_there):
        """How many bytes are carried at once."""
        count = 4096 if self.baud is None else max(1, self.baud // BITS // 200)
        if is_there and self.hold_at is not None and not self.go_on.is_set():
            return min(count, self.hold_at - len(self.there))
        return count

    def carry(self, end):
        is_there = end == self.near.inner
        data = os.read(end, self.most(is_there))
        if self.baud is not None:
            time.sleep(len(data) * BITS / self.baud)
        (self.there if is_there else self.back).extend(data)
        while data:
            data = data[os.write(self.far.inner if is_there else self.near.inner, data) :]
        if self.cut_at is not None and len(self.there) >= self.cut_at:
            self.over.set()
            self.near.pull()


@contextlib.contextmanager
def cable(**how):
    """Two plugs and the cable between them."""
    with plug() as near, plug() as far:
        between = Cable(near, far, **how)
        between.start()
        try:
            yield between
        finally:
            between.over.set()
            between.join(LIMIT)
