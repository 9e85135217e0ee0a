"""The example programs of the library for C beside peers that start late or stall: more than one
answer is under way then, and the line has to clear."""

import os
import socket
import subprocess

from support.cases import case, cases
from support.frames import mixed, place
from support.library import example
from support.peers import Pause, PlainReceiver, PlainSender, receive_plainly
from support.program import LIMIT, folders, wants_stored, write_files
from support.waits import wait_for


FILES = [("a", b""), ("b", b"\x1a" * 700), ("c", bytes(range(256)) * 9), ("d", b"")]

# Seconds that an answer is late: a sender has written its frame once more by then, or twice.
LATE = ((12, 1), (21, 2))


def line():
    """The two ends of a line."""
    with socket.create_server(("127.0.0.1", 0)) as listener:
        one = socket.create_connection(listener.getsockname(), timeout=LIMIT)
        other, _ = listener.accept()
    one.settimeout(None)
    other.settimeout(LIMIT)
    return one, other


def ended(child):
    """The status of a child that ends."""
    _, said = child.communicate(timeout=LIMIT)
    return child.returncode, said.decode(errors="replace")


def started(words, end, folder):
    """A program whose standard input and output are this end of a line."""
    child = subprocess.Popen(words, stdin=end, stdout=end, stderr=subprocess.PIPE, cwd=folder)
    end.close()
    return child


@cases(
    *(
        case(
            "the example's receive asked %d times before its sender starts, copies %d ms apart"
            % (asked, gap * 1000),
            asked,
            gap,
        )
        for asked, gap in ((2, 0.1), (4, 0.3))
    )
)
def test_sent_late(asked, gap):
    """A plain sender that starts when the receiver has asked so many times, and answers each C by
    block 0."""
    with folders() as (_, there):
        one, other = line()
        child = started([example("receive"), there], one, there)
        sender = PlainSender(FILES, gap=gap)
        wait_for(other, asked)
        with other:
            sender.run(other)
        status, said = ended(child)
        assert status == 0 and sender.is_finished, "status %d: %s" % (status, said)
        wants_stored(there, FILES)


@cases(
    *(
        case(
            "the example's send is answered %d s late at %s%s" % (seconds, where, how),
            where,
            seconds,
            copies,
            is_single,
        )
        for seconds, copies in LATE
        for where in ("block 0", "the EOT")
        for how, is_single in (("", False), (", one EOT", True))
    )
)
def test_answered_late(where, seconds, copies, is_single):
    """A plain receiver that answers a frame so late, and then each copy that has come meanwhile."""
    with folders() as (here, _):
        names = [os.path.basename(path) for path in write_files(here, FILES)]
        one, other = line()
        child = started([example("send"), *names], one, here)
        receiver = PlainReceiver(is_single)
        with other:
            receive_plainly(
                other, receiver, pause=Pause(place(where, FILES, mixed), seconds), copies=copies
            )
        status, said = ended(child)
        assert status == 0 and receiver.is_finished, "status %d: %s" % (status, said)
        assert receiver.kept == dict(FILES), "kept: %s" % {
            name: len(data) for name, data in receiver.kept.items()
        }
