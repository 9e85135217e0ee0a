"""Pseudo terminals: a program under one, and pipes joined to one."""

import fcntl
import os
import select
import struct
import subprocess
import termios
import threading
import time

from support.program import LIMIT


def joined(read, write):
    """Carries bytes from one descriptor to another in the background, until the first one ends. It
    keeps copies of both."""
    read, write = os.dup(read), os.dup(write)

    def carry():
        try:
            while data := os.read(read, 65536):
                while data:
                    data = data[os.write(write, data) :]
        except OSError:
            pass  # one of them is gone
        os.close(read)
        os.close(write)

    threading.Thread(target=carry, daemon=True).start()


def is_raw(end):
    """Whether a terminal changes no bytes."""
    return not termios.tcgetattr(end)[3] & (termios.ICANON | termios.ECHO)


def ready(ends, seconds):
    """Those of these descriptors to which something comes, within so many seconds. `select` takes
    none above 1023, and hundreds of tests are under way at once."""
    poll = select.poll()
    for end in ends:
        poll.register(end, select.POLLIN)
    return [end for end, _ in poll.poll(seconds * 1000)]


def is_ready(end, seconds):
    """Whether something comes to a descriptor within so many seconds."""
    return bool(ready([end], seconds))


class UnderTerminal:
    """A program whose standard streams and controlling terminal are a pseudo terminal, and what it
    shows."""

    def __init__(self, words, **how):
        self.end, other = os.openpty()
        self.shown = b""
        fcntl.ioctl(other, termios.TIOCSWINSZ, struct.pack("HHHH", 24, 80, 0, 0))

        def take_terminal():
            fcntl.ioctl(0, termios.TIOCSCTTY, 0)

        how["start_new_session"] = True
        self.child = subprocess.Popen(
            words, stdin=other, stdout=other, stderr=other, preexec_fn=take_terminal, **how
        )
        os.close(other)

    def type(self, data):
        os.write(self.end, data)

    def until(self, text):
        """Waits until this text is shown, and gives what is shown before it; the next call looks
        behind it."""
        until = time.monotonic() + LIMIT
        while text not in self.shown:
            assert is_ready(
                self.end, max(until - time.monotonic(), 0)
            ), "the terminal never showed %r, but %r" % (text, self.shown)
            try:
                self.shown += os.read(self.end, 65536)
            except OSError:
                raise AssertionError(
                    "the terminal never showed %r, but %r, and the program has ended"
                    % (text, self.shown)
                ) from None
        before, _, self.shown = self.shown.partition(text)
        return before

    def sees(self, text):
        """The same, but it gives what is shown behind it."""
        self.until(text)
        return self.shown

    def shows(self, text, seconds=0.5):
        """Whether this text is shown, soon."""
        if text not in self.shown and is_ready(self.end, seconds):
            self.shown += os.read(self.end, 65536)
        return text in self.shown

    def ended(self):
        return self.child.wait(LIMIT)

    def hang_up(self):
        """The terminal is gone, as where its window is closed."""
        os.close(self.end)
        self.end = None

    def stop(self):
        self.child.kill()
        self.child.wait()
        if self.end is not None:
            os.close(self.end)
