"""`ymodem sb` and `ymodem rb` that stand still in the middle of a transfer, as by Ctrl-Z and `fg` or
on a machine that was asleep: they go on, and the files are whole."""

import os
import random
import signal
import time

from support.cable import plug, set_for_ticks
from support.cases import case, cases
from support.frames import START
from support.on_line import says, started
from support.peers import PlainReceiver, PlainSender, frames_at
from support.plug_end import End
from support.program import (
    LIMIT,
    PROGRAM,
    file_lines,
    folders,
    wants_same,
    wants_stored,
    write_files,
)
from support.terminal import is_ready
from support.waits import waiting


CHANCE = random.Random(38)
FILES = [("first", CHANCE.randbytes(5000)), ("second", CHANCE.randbytes(700))]
# Seconds: more than a read of the line takes, and less than a receiver waits before it asks again.
STALL = 2


class StandsStill(End):
    """An end of a plug. The program stands still before the writes with these numbers, and goes on
    behind them: what it has read before has always come soon."""

    def __init__(self, it, child, numbers):
        super().__init__(it)
        self.child, self.left, self.count = child, set(numbers), 0

    def recv(self, count):
        until = time.monotonic() + LIMIT
        while not is_ready(self.it.inner, 0.5):
            assert time.monotonic() <= until, "the program wrote nothing"
            if self.child.poll() is not None and not waiting(self.it.inner):
                raise ConnectionResetError("the program has ended")
        return super().recv(count)

    def sendall(self, data):
        is_still = self.count in self.left
        self.left.discard(self.count)
        self.count += 1
        if is_still:
            self.child.send_signal(signal.SIGSTOP)
            os.waitid(os.P_PID, self.child.pid, os.WSTOPPED | os.WEXITED | os.WNOWAIT)
            # that the read comes to its end late is what it has to bear
            time.sleep(STALL)
        super().sendall(data)
        if is_still:
            self.child.send_signal(signal.SIGCONT)

    def wants_done(self):
        wants_same({"left": self.left}, {"left": set()})


def receive_at(end):
    """What a receiver has at the end, who answers each frame at once."""
    receiver = PlainReceiver()
    for frame in frames_at(end):
        end.sendall(receiver.answer(frame))
        if receiver.is_finished:
            break
    return receiver.kept


@cases(
    case("ymodem sb, which stands still at its first block", [0]),
    case("ymodem sb, which stands still at a data block", [3]),
    case("ymodem sb, which stands still three times", [1, 6, 13]),
)
def test_sender(numbers):
    with folders() as (here, _), plug() as it:
        set_for_ticks(it.path)
        # it is asked before it is there, so that its first read ends at once
        os.write(it.inner, bytes((START,)))
        words = [PROGRAM, "sb", "--line", it.path, *write_files(here, FILES)]
        with started(words, here) as child:
            end = StandsStill(it, child, numbers)
            kept = receive_at(end)
            says(child, 0, "sender done 2 finished\n")
        wants_same(kept, dict(FILES))
        end.wants_done()


@cases(
    case("ymodem rb, which stands still at its first block", [1]),
    case("ymodem rb, which stands still at a data block", [3]),
    case("ymodem rb, which stands still three times", [1, 6, 13]),
)
def test_receiver(numbers):
    with folders() as (_, there), plug() as it:
        set_for_ticks(it.path)
        with started([PROGRAM, "rb", "--line", it.path], there) as child:
            end = StandsStill(it, child, numbers)
            PlainSender(FILES).run(end)
            says(child, 0, file_lines(FILES) + "receiver files 2 finished\n")
        wants_stored(there, FILES)
        end.wants_done()
