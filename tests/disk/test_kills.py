"""Either end is killed at some moment of a batch, and its folder is looked at: each file is there
whole under its name or not at all, at most one part stands beside them, and the same batch comes
again.

Moments are numbered events of the batch, each with a piece of a millisecond behind it. What has to
hold does not depend on where within a call the end was, and with strace it is killed before each of
its calls on files as well.
"""

import contextlib
import os
import random
import signal
import threading

import pytest
from support.cases import case, cases, sentence
from support.claims import claim_of_receive, claim_of_send
from support.file_calls import CHANCE, FEW_FILES, file_calls, paths_of
from support.frames import frames_of
from support.program import LIMIT, folders, free_port, running, stored, write_files
from support.relay import Clean, Relay
from support.storing import comes_again, received, wants_whole_front
from support.tracing import at_paths, strace


pytestmark = pytest.mark.steadily

MOMENTS = 200
FILES = [
    ("empty", b""),
    ("short", CHANCE.randbytes(100)),
    ("long", CHANCE.randbytes(70_000)),
    ("last", CHANCE.randbytes(3000)),
]

# A sender's C, and then a frame and its answer each. Each first EOT has an answer of its own.
EVENTS = 1 + 2 * (len(frames_of(FILES)) + len(FILES))


class Killing(Clean):
    """A line at whose event of this number an end is killed."""

    def __init__(self, at, seconds):
        self.at, self.seconds = at, seconds
        self.events = 0
        self.are_running = threading.Event()
        self.victim = None

    def happens(self, data):
        if self.events == self.at:
            self.are_running.wait(LIMIT)
            threading.Timer(self.seconds, self.victim.child.kill).start()
        self.events += 1
        return data

    there = back = happens


@cases(
    *(
        case(
            "killed: %s, at moment %d of a batch" % ("send" if number % 2 else "receive", number),
            number,
        )
        for number in range(MOMENTS)
    )
)
def test_moment(number):
    """One of the two ends dies; what the other one tells is so."""
    chance = random.Random(number)
    line = Killing(chance.randrange(EVENTS), chance.choice((0, chance.uniform(0, 0.002))))
    with folders() as (here, there), contextlib.ExitStack() as children:
        paths = write_files(here, FILES)
        port = free_port()
        relay = Relay(line, port)
        relay.start()
        receive = children.enter_context(running("receive", "--port", port, there))
        send = children.enter_context(running("send", "--port", relay.port, *paths))
        line.victim = send if number % 2 else receive
        line.are_running.set()
        received_, sent = receive.ended(), send.ended()
        relay.join()
        assert not relay.fault, "the relay: %r" % relay.fault
        found = stored(there)
        count, _ = wants_whole_front(found, FILES)
        assert (
            sent.status == -signal.SIGKILL or claim_of_send(sent).count <= count
        ), "send told %r, and %d are stored" % (sent.out, count)
        if received_.status != -signal.SIGKILL:
            assert len(found) <= count, (
                "receive ended with status %d and left a part" % received_.status
            )
            assert (
                claim_of_receive(received_, FILES).count == count
            ), "receive told %r, and %d are stored" % (received_.out, count)
        assert -signal.SIGKILL in (sent.status, received_.status) or count >= len(FILES), (
            "nobody was killed, and %d files are stored" % count
        )
        comes_again(FILES, there)


@sentence("killed: receive, before each of its calls on files")
def test_before_each_call():
    for call, number in file_calls(FEW_FILES):
        with folders() as (log, there):
            kill = strace(
                os.path.join(log, "log"),
                *at_paths(paths_of(there, FEW_FILES)),
                "-e",
                "inject=%s:signal=KILL:when=%d" % (call.name, number),
            )
            ended, sender = received(FEW_FILES, there, before=kill)
            assert (
                ended.status == -signal.SIGKILL
            ), "before %r it was not killed, but ended with status %d" % (call, ended.status)
            try:
                count, _ = wants_whole_front(stored(there), FEW_FILES)
                assert sender.done <= count, "%d files are stored, and %d were acknowledged" % (
                    count,
                    sender.done,
                )
                comes_again(FEW_FILES, there)
            except AssertionError as wrong:
                raise AssertionError("killed before %r: %s" % (call, wrong)) from None
