"""Runs the program, and looks at what it left behind."""

import contextlib
import os
import resource
import signal
import socket
import subprocess
import tempfile
import time


ROOT = os.path.dirname(os.path.dirname(os.path.dirname(os.path.abspath(__file__))))
PROGRAM = os.path.abspath(
    os.environ.get("YMODEM", os.path.join(ROOT, "crates", "ymodem", "out", "ymodem"))
)

# Seconds after which what a check still waits for has failed. It is no measure of the program: a
# machine that is busy takes its time.
LIMIT = int(os.environ.get("LIMIT", "300"))

# Several transfers run side by side, each with its sockets and pipes.
resource.setrlimit(resource.RLIMIT_NOFILE, (resource.getrlimit(resource.RLIMIT_NOFILE)[1],) * 2)

# What was started in the background, or by nohup, ignores signals, and so would all that it starts:
# a program has to do here what a signal does to it.
for ignored in (signal.SIGHUP, signal.SIGINT, signal.SIGQUIT):
    if signal.getsignal(ignored) is signal.SIG_IGN:
        signal.signal(ignored, lambda *_: None)

HELD = []


def free_port():
    """A port of 127.0.0.1 for `receive`, which nobody else gets. It stays bound until all checks
    have ended; `receive` can listen there all the same, since it and this socket both say that the
    address may be used again, and this one does not listen.
    """
    held = socket.socket()
    held.setsockopt(socket.SOL_SOCKET, socket.SO_REUSEADDR, 1)
    held.bind(("127.0.0.1", 0))
    HELD.append(held)
    return held.getsockname()[1]


class Ending:
    """How a child ended: its status, what it wrote, and its seconds."""

    def __init__(self, words, status, out, err, seconds):
        self.words, self.status, self.out, self.err, self.seconds = words, status, out, err, seconds

    def wants(self, status, out, err=""):
        """Fails where it ended otherwise. Each text may be several, of which one has to fit."""
        for name, got, want in (
            ("status", self.status, status),
            ("output", self.out, out),
            ("error", self.err, err),
        ):
            wanted = want if isinstance(want, tuple) else (want,)
            assert got in wanted, "%s: %s %r, wanted %s (%r, %r)" % (
                self.words[0],
                name,
                got,
                " or ".join(map(repr, wanted)),
                self.out,
                self.err,
            )


class Child:
    """The program with these words, running. It is killed where it runs past its limit."""

    def __init__(self, *words, limit=LIMIT, given=None, out=subprocess.PIPE, before=()):
        self.words, self.limit, self.given = words, limit, given
        self.began = time.monotonic()
        given_file = subprocess.DEVNULL if given is None else subprocess.PIPE
        words = [*before, PROGRAM, *map(str, words)]
        self.child = subprocess.Popen(words, stdin=given_file, stdout=out, stderr=subprocess.PIPE)

    def ended(self):
        left = max(self.began + self.limit - time.monotonic(), 0.1)
        try:
            out, err = self.child.communicate(self.given, timeout=left)
        except subprocess.TimeoutExpired:
            self.child.kill()
            self.child.communicate()
            raise AssertionError(
                "%s ran past its limit of %d s" % (self.words[0], self.limit)
            ) from None
        seconds = time.monotonic() - self.began
        return Ending(
            self.words, self.child.returncode, (out or b"").decode(), err.decode(), seconds
        )

    def stop(self):
        if self.child.poll() is None:
            self.child.kill()
            self.child.communicate()


@contextlib.contextmanager
def running(*words, **how):
    """The same, and gone at the end."""
    child = Child(*words, **how)
    try:
        yield child
    finally:
        child.stop()


def run(*words, **how):
    with running(*words, **how) as child:
        return child.ended()


def connected(port, child=None):
    """A connection to whoever listens at this port, now or soon; it is this child, if one is
    named."""
    until = time.monotonic() + LIMIT / 3
    while True:
        try:
            return socket.create_connection(("127.0.0.1", port), timeout=LIMIT)
        except ConnectionRefusedError:
            if child and child.child.poll() is not None:
                raise AssertionError(
                    "it has ended before it listened: %r" % child.ended().err
                ) from None
            if time.monotonic() > until:
                raise AssertionError("nobody listens at the port of receive") from None
            time.sleep(0.02)


@contextlib.contextmanager
def folders():
    """Two new folders: one to send from, one to receive into."""
    with tempfile.TemporaryDirectory(prefix="ymodem-") as top:
        here, there = os.path.join(top, "here"), os.path.join(top, "there")
        os.mkdir(here)
        os.mkdir(there)
        yield here, there


def write_files(folder, files):
    """Writes files, which are pairs of a name and bytes, and gives their paths in order."""
    paths = []
    for name, data in files:
        paths.append(os.path.join(folder, name))
        with open(paths[-1], "wb") as it:
            it.write(data)
    return paths


def write_program(path, text):
    """Writes a script that is run, and gives its path. Another process writes it: if this one had
    it open, so would a child that another test begins at that moment, and the system runs no file
    that somebody has open to write."""
    words = ["sh", "-c", 'cat > "$1" && chmod 755 "$1"', "sh", path]
    subprocess.run(words, input=text.encode(), check=True)
    return path


def copy_program(path, folder):
    """A copy of a script that is run, in this folder, made alike."""
    subprocess.run(["cp", path, folder], check=True)
    return os.path.join(folder, os.path.basename(path))


def stored(folder):
    """What stands in a folder. Where a file was renamed meanwhile, as one is that is committed, it
    is looked at once more."""
    while True:
        names = os.listdir(folder)
        try:
            return {name: bytes_at(os.path.join(folder, name)) for name in names}
        except FileNotFoundError as gone:
            if os.path.lexists(gone.filename):
                raise


def bytes_at(path):
    with open(path, "rb") as it:
        return it.read()


def wants_stored(folder, files):
    """Fails where the folder has other files than these, or one of them with other bytes."""
    wants_same(stored(folder), dict(files))


def wants_same(found, wanted):
    for name in sorted(found.keys() | wanted.keys()):
        assert name in found, "%r is missing" % name
        assert name in wanted, "%r was left behind" % name
        assert found[name] == wanted[name], "%r differs: %d bytes, wanted %d" % (
            name,
            len(found[name]),
            len(wanted[name]),
        )


def file_lines(files, stamp="- -"):
    return "".join("file %s %d %s\n" % (name, len(data), stamp) for name, data in files)
