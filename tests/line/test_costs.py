"""What a block that is damaged or lost costs, in seconds: as docs/serial.md tells it."""

import random
import time

from support.cases import case, cases
from support.end_to_end import transfer
from support.relay import Watch

FILES = [("long", random.Random(41).randbytes(7000))]
# More seconds than it should take, by which it still is that.
MORE = 0.75


class Once(Watch):
    """A line that makes something else of block 2, once, and knows how long it was until the next
    block came."""

    def __init__(self, made):
        super().__init__()
        self.made, self.began, self.cost = made, None, None

    def damaged_frame(self, frame):
        if self.is_at_data() and frame[1] == 2 and self.began is None:
            self.began = time.monotonic()
            return self.made(frame)
        if self.is_at_data() and frame[1] == 3 and self.cost is None:
            self.cost = time.monotonic() - self.began
        return frame


def flipped(frame):
    return frame[:500] + bytes((frame[500] ^ 0x20,)) + frame[501:]


def lost(_):
    return b""


@cases(
    case("a damaged block costs a second", flipped, 1),
    case("a block of which nothing comes costs four seconds", lost, 4),
)
def test_costs(made, seconds):
    """Until the receiver has seen that the line is quiet. Of a lost one it asks when its wait is
    over, and lets its line clear for a second before it answers."""
    line = Once(made)
    transfer(FILES, line)
    assert seconds <= line.cost <= seconds + MORE, "it cost %.2f s" % line.cost
