"""Boards of QEMU, each with its serial port on a connection, and a sender put on that line."""

import contextlib
import re
import socket
import subprocess
import threading

from support.one_end import sending
from support.program import LIMIT
from support.qemu_words import words_of
from support.relay import at_once
from support.skipping import needs


QEMU = "qemu-system-aarch64"


class Port(threading.Thread):
    """The computer's side of a board's serial port. All that the board writes is kept; while a
    sender is joined, it gets that too, and what it writes goes to the board."""

    def __init__(self, line):
        super().__init__(daemon=True)
        self.line, self.sender = line, None
        self.said, self.is_closed, self.news = b"", False, threading.Condition()

    def run(self):
        while True:
            try:
                came = self.line.recv(65536)
            except OSError:
                came = b""
            with self.news:
                self.said += came
                self.is_closed = not came
                sender = self.sender
                self.news.notify_all()
            if not came:
                return
            if sender:
                with contextlib.suppress(OSError):
                    sender.sendall(came)

    def sees(self, pattern, start=0):
        """Waits until the board has said this, and gives the match."""
        with self.news:
            found = None
            while not found:
                found = re.compile(pattern, re.S).search(self.said, start)
                assert found or (
                    not self.is_closed and self.news.wait(LIMIT)
                ), "it does not say %r, but %r" % (pattern, self.said[start:][-1500:])
            return found

    def type(self, text):
        self.line.sendall(text)

    def carry(self, sender):
        """Joins a sender, and hands on what it writes until it closes."""
        with self.news:
            self.sender = sender
        try:
            while came := sender.recv(65536):
                self.line.sendall(came)
        finally:
            with self.news:
                self.sender = None
            sender.close()


@contextlib.contextmanager
def turned_on(*machine):
    """A board of QEMU that was turned on: its serial port, and the process."""
    needs(machine[0])
    with socket.create_server(("127.0.0.1", 0)) as listener:
        listener.settimeout(LIMIT)
        # A serial port keeps no byte back until those before it were taken.
        line = "tcp:127.0.0.1:%d,nodelay=on" % listener.getsockname()[1]
        how = {"stdin": subprocess.DEVNULL, "stdout": subprocess.DEVNULL, "stderr": subprocess.PIPE}
        child = subprocess.Popen(words_of(machine, line), **how)
        try:
            end, _ = listener.accept()
            at_once(end)
            end.settimeout(None)
            with end:
                port = Port(end)
                port.start()
                yield port, child
        finally:
            child.kill()
            child.communicate()


def board(*words, memory="64M", cpu="cortex-a53", machine=None):
    """A board, by default QEMU's `virt` of 64-bit ARM."""
    machine = machine or (QEMU, "-M", "virt", "-cpu", cpu)
    return turned_on(*machine, "-m", memory, *words)


def from_program(paths, line=None, status=0, told=None):
    """What sends by `ymodem send`, over a line that may be damaged."""

    def send(port):
        with sending(paths, line) as (sender, called):
            # It may close with bytes unread: what the board says behind the batch.
            with contextlib.suppress(ConnectionResetError):
                port.carry(called())
            sender.ended().wants(status, told or "sender done %d finished\n" % len(paths))

    return send


def from_lrzsz(*words):
    """What sends by `sb` with these words."""

    def send(port):
        needs("sb")
        here, there = socket.socketpair()
        here.settimeout(LIMIT)
        child = subprocess.Popen(
            ["sb", "-q", *words], stdin=there, stdout=there, stderr=subprocess.PIPE
        )
        there.close()
        try:
            # It may close with bytes unread.
            with contextlib.suppress(ConnectionResetError):
                port.carry(here)
            _, said = child.communicate(timeout=LIMIT)
        finally:
            child.kill()
            child.communicate()
        assert not child.returncode, "sb: status %d: %s" % (
            child.returncode,
            said.decode(errors="replace"),
        )

    return send
