"""The two ends of a session that is recorded: what each writes is read from it, and what the other
wrote is given to it."""

import contextlib
import os
import signal
import socket
import subprocess
import tempfile

from support.one_end import receiving, sending
from support.program import connected
from support.uboot_boards import ARM64


class Nobody:
    """Nobody stands there."""

    def fileno(self):
        return None

    def read(self):
        return b""

    def give(self, data):
        pass

    def interrupt(self):
        pass


class Piped(Nobody):
    """A program on two pipes."""

    def __init__(self, child):
        self.child = child

    def fileno(self):
        return self.child.stdout.fileno()

    def read(self):
        return os.read(self.fileno(), 4096)

    def give(self, data):
        with contextlib.suppress(BrokenPipeError):
            self.child.stdin.write(data)

    def interrupt(self):
        self.child.send_signal(signal.SIGINT)


class Connected(Nobody):
    """One of our own ends, or a board, at a connection."""

    def __init__(self, end, child=None):
        self.end, self.child = end, child

    def fileno(self):
        return self.end.fileno()

    def read(self):
        try:
            return self.end.recv(4096)
        except ConnectionResetError:
            return b""

    def give(self, data):
        with contextlib.suppress(OSError):
            self.end.sendall(data)


@contextlib.contextmanager
def nobody(_):
    yield Nobody()


def piped(*words):
    """A program with these words, and the files that it sends behind them."""

    @contextlib.contextmanager
    def started(files):
        with folder_of(files) as here:
            pipe = subprocess.PIPE
            names = [name for name, _ in files]
            how = {"cwd": here, "stdin": pipe, "stdout": pipe, "stderr": subprocess.DEVNULL}
            child = subprocess.Popen([*words, *names], bufsize=0, **how)
            try:
                yield Piped(child)
            finally:
                child.kill()
                child.wait()
                child.stdin.close()
                child.stdout.close()

    return started


@contextlib.contextmanager
def folder_of(files):
    with tempfile.TemporaryDirectory(prefix="ymodem-") as here:
        for name, data in files:
            with open(os.path.join(here, name), "wb") as it:
                it.write(data)
        yield here


@contextlib.contextmanager
def our_sender(files):
    """`ymodem send`."""
    with folder_of(files) as here:
        with sending([os.path.join(here, name) for name, _ in files]) as (child, called):
            with contextlib.closing(called()) as end:
                yield Connected(end, child)


@contextlib.contextmanager
def our_receiver(_):
    """`ymodem receive`, which asks at once."""
    with folder_of([]) as there, receiving(there) as (child, port):
        with contextlib.closing(connected(port, child)) as end:
            end.settimeout(None)
            yield Connected(end, child)


class Said:
    """Hands on what a board says."""

    def __init__(self, end):
        self.end = end

    def sendall(self, data):
        self.end.sendall(data)


def board(command):
    """U-Boot at its prompt, where this command is typed. What it says from then on is the
    record's."""

    @contextlib.contextmanager
    def started(_):
        with ARM64.started() as port:
            ours, other = socket.socketpair()
            port.sender = Said(other)
            end = Connected(ours)
            end.give = port.type
            port.type(command.encode() + b"\r")
            if command.startswith("loady"):
                port.sees(rb"## Ready for binary")
            yield end
            port.sender = None
            ours.close()
            other.close()

    return started


LOADY = "loady %x" % ARM64.at
