"""The other end of a page's line: `sb`, `rb`, `ymodem send` and `ymodem receive`, behind a
WebSocket, on a line that may be damaged."""

import contextlib
import random
import socket
import subprocess
import threading
import time

from support.bridge import Bridge
from support.one_end import receiving, sending
from support.program import LIMIT, connected


class Flips:
    """Flips a byte in some of the longer pieces that go over a line."""

    def __init__(self, seed, most):
        self.random = random.Random(seed)
        self.left = most

    def __call__(self, data):
        if self.left == 0 or len(data) < 100 or self.random.random() > 0.1:
            return data
        self.left -= 1
        made = bytearray(data)
        made[self.random.randrange(3, len(made))] ^= self.random.randint(1, 255)
        return bytes(made)


class Held:
    """A line that carries so many bytes, and then stands still until it goes on: a check can look
    at a transfer that is under way, for as long as it takes."""

    def __init__(self, most, damage=None):
        self.left, self.damage = most, damage or (lambda data: data)
        self.goes_on = threading.Event()

    def __call__(self, data):
        if self.left < len(data):
            self.goes_on.wait(LIMIT)
        self.left = max(0, self.left - len(data))
        return self.damage(data)

    def go_on(self):
        self.goes_on.set()


class Paced:
    """A line that carries so many bytes a second, as a serial one does."""

    def __init__(self, rate):
        self.rate, self.free = rate, 0.0

    def __call__(self, data):
        self.free = max(self.free, time.monotonic()) + len(data) / self.rate
        time.sleep(max(0.0, self.free - time.monotonic()))
        return data


class Peer(threading.Thread):
    """A peer of the check's own behind a bridge: it does this with its end of the line."""

    def __init__(self, act):
        super().__init__(daemon=True)
        with socket.create_server(("127.0.0.1", 0)) as listener:
            far = socket.create_connection(listener.getsockname())
            self.end, _ = listener.accept()
        self.end.settimeout(LIMIT)
        self.bridge = Bridge(lambda: far)
        self.act, self.fault = act, None
        self.start()

    def run(self):
        try:
            self.act(self.end)
        except Exception as fault:  # told by the check
            self.fault = fault

    def __enter__(self):
        return self

    def __exit__(self, kind, *_):
        if kind is None:
            self.join(LIMIT)
            assert not self.is_alive() and self.fault is None, "the peer: %r" % self.fault
        self.bridge.is_cut.set()
        self.end.close()


@contextlib.contextmanager
def lrzsz(words, folder, damage=None):
    """One of the programs of lrzsz, and the bridge to it."""
    near, far = socket.socketpair()
    child = subprocess.Popen(words, cwd=folder, stdin=near, stdout=near, stderr=subprocess.DEVNULL)
    near.close()
    bridge = Bridge(lambda: far, damage)
    try:
        yield bridge, lambda: child.wait(LIMIT)
    finally:
        bridge.is_cut.set()
        child.kill()
        child.wait()


@contextlib.contextmanager
def program_sends(paths, line=None, damage=None):
    """`ymodem send`, and the bridge to it."""
    with sending(paths, line) as (child, called):
        bridge = Bridge(called, damage)
        try:
            yield bridge, child.ended
        finally:
            bridge.is_cut.set()


@contextlib.contextmanager
def program_receives(folder, line=None):
    """`ymodem receive`, and the bridge to it."""
    with receiving(folder, line) as (child, port):
        bridge = Bridge(lambda: connected(port, child))
        try:
            yield bridge, child.ended
        finally:
            bridge.is_cut.set()


class Loader(threading.Thread):
    """A boot loader at the far end of a bridge: a prompt that repeats what is typed, and at `loady`
    a receiver of files."""

    BANNER = (
        b"U-Boot 2026.01 (Nov 02 2026 - 10:11:12 +0000)\r\n\r\nModel: Rehearsal Board\r\nDRAM:  512"
        b" MiB\r\nHit any key to stop autoboot:  0\r\n=> "
    )

    def __init__(self, folder, damage=None):
        super().__init__(daemon=True)
        self.folder = folder
        self.end, far = socket.socketpair()
        self.bridge = Bridge(lambda: far, damage)
        self.typed = b""
        self.status = None
        self.start()

    def run(self):
        try:
            self.serve()
        except OSError:
            pass  # the check has closed the line

    def serve(self):
        self.end.sendall(self.BANNER)
        while came := self.end.recv(1):
            self.typed += came
            self.end.sendall(b"\r\n" if came == b"\r" else came)
            if came == b"\r":
                self.obey(self.typed.split(b"\r")[-2])

    def obey(self, command):
        if command == b"loady":
            self.end.sendall(
                b"## Ready for binary (ymodem) download to 0x82000000 at 115200 bps...\r\n"
            )
            self.status = subprocess.run(
                ["rb", "-q"],
                cwd=self.folder,
                stdin=self.end,
                stdout=self.end,
                stderr=subprocess.DEVNULL,
                timeout=LIMIT,
            ).returncode
            self.end.sendall(
                b"## Total Size      = 0x000c3500 = 800000 Bytes\r\n"
                if self.status == 0
                else b"## Binary (ymodem) download aborted\r\n"
            )
        elif command:
            self.end.sendall(b"Unknown command '" + command + b"' - try 'help'\r\n")
        self.end.sendall(b"=> ")

    def close(self):
        self.bridge.is_cut.set()
        self.end.close()
