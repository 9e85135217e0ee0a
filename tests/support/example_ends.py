"""The examples of the library for C at the ends of a line."""

import contextlib
import random
import socket
import subprocess

from support.library import example
from support.program import LIMIT, connected, folders, wants_stored, write_files


# ---- The examples, beside the program and lrzsz


def files():
    chance = random.Random(31)
    sizes = (0, 1, 127, 128, 129, 1023, 1024, 1025, 3000, 33333)
    return [
        *(("size-%d.bin" % size, chance.randbytes(size)) for size in sizes),
        ("two words.txt", b"\x1a" * 200),
        ("n" * 100, b"\x18\x18\x04" * 100),
    ]


@contextlib.contextmanager
def on_line(words, end, **how):
    """A program whose standard input and output are this end of a line."""
    child = subprocess.Popen(words, stdin=end, stdout=end, stderr=subprocess.PIPE, **how)
    end.close()
    try:
        yield child
    finally:
        child.kill()
        child.communicate()


def wants_end(child, what):
    _, said = child.communicate(timeout=LIMIT)
    assert child.returncode == 0, "%s: status %d: %s" % (
        what,
        child.returncode,
        said.decode(errors="replace"),
    )


def pair(receive, send):
    """Two programs at the two ends of a line: the words of each, of the folders."""
    with folders() as (here, there):
        batch = files()
        write_files(here, batch)
        names = [name for name, _ in batch]
        one, other = socket.socketpair()
        with on_line(receive(there), one, cwd=there) as receiver, on_line(
            send(names), other, cwd=here
        ) as sender:
            wants_end(sender, "sender")
            wants_end(receiver, "receiver")
        wants_stored(there, batch)


def c_receive(there):
    return [example("receive"), there]


def c_send(names):
    return [example("send"), *names]


def line_to(port, child):
    end = connected(port, child)
    end.setsockopt(socket.IPPROTO_TCP, socket.TCP_NODELAY, 1)
    end.settimeout(None)
    return end
