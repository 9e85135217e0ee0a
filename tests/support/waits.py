"""Waiting for what a check needs to see."""

import contextlib
import fcntl
import select
import socket
import struct
import termios
import time

from support.program import LIMIT
from support.pulse import beating


# The state of a socket that listens, in the tables of the system.
LISTENS = "0A"


def waiting(end):
    """How many bytes have come and were not taken."""
    return struct.unpack("i", fcntl.ioctl(end, termios.FIONREAD, bytes(4)))[0]


@contextlib.contextmanager
def counting(end, count):
    """Has a socket count as one that can be read where so many bytes have come."""
    end.setsockopt(socket.SOL_SOCKET, socket.SO_RCVLOWAT, count)
    try:
        yield
    finally:
        end.setsockopt(socket.SOL_SOCKET, socket.SO_RCVLOWAT, 1)


def comes(end, seconds):
    """Whether something comes within so many seconds, or its end. `select` takes no descriptor
    above 1023, and many tests of one process have more."""
    poll = select.poll()
    poll.register(end, select.POLLIN)
    return bool(poll.poll(1000 * seconds))


def wait_to_read(end, count, seconds):
    """Waits until a socket has so many bytes, or was closed, and no longer than so many seconds."""
    with counting(end, count):
        comes(end, seconds)


def wait_for(end, count):
    """Waits until so many bytes have come, without taking them. The system tells when a socket has
    them: hundreds of threads that look again and again take much of a processor."""
    until = time.monotonic() + LIMIT
    if waiting(end) < count and isinstance(end, socket.socket):
        wait_to_read(end, count, LIMIT)
    while waiting(end) < count:
        assert time.monotonic() <= until, "the program did not write %d bytes more" % count
        time.sleep(0.02)


# A receiver asks every three seconds, and a little later each time. Where its last ask was seen so
# many seconds late, a test shows nothing: it gives up three behind the ninth.
ASKS_EVERY, MAY_BE_LATE = 3.1, 1


def wait_for_asks(receiver, count):
    """Waits until a receiver that was just connected has asked so many times."""
    began = time.monotonic()
    wait_for(receiver, count)
    beating().note(began, ASKS_EVERY * count + MAY_BE_LATE)


def wait_until(is_so, what, child=None):
    """Waits until this is so, or the child that has to bring it about has ended, where one is
    named."""
    until = time.monotonic() + LIMIT
    while not is_so():
        assert not child or child.child.poll() is None, "it has ended before %s: %r" % (
            what,
            child.ended().err,
        )
        assert time.monotonic() <= until, "it never came that " + what
        time.sleep(0.02)


def listeners(port):
    """The addresses at which somebody listens at this port, as the system writes them."""
    found = []
    for table in ("/proc/net/tcp", "/proc/net/tcp6"):
        with contextlib.suppress(FileNotFoundError), open(table, encoding="ascii") as lines:
            for line in list(lines)[1:]:
                address, state = line.split()[1:4:2]
                if state == LISTENS and int(address.split(":")[1], 16) == port:
                    found.append(address.split(":")[0])
    return found
