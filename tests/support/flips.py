"""Lines to U-Boot that flip bits."""

import random
import tempfile
import time

from support.one_end import sending
from support.program import write_files
from support.relay import Clean

# What is flipped: deliveries of both ways, frames alone, or replies alone.
BOTH, FRAMES, REPLIES = "deliveries", "frames", "replies"


class Flips(Clean):
    """A line that flips a bit of five of the first deliveries: of those of both ways, counted
    together, or of frames or replies alone."""

    def __init__(self, seed, which=BOTH):
        self.random, self.which = random.Random(seed), which
        self.struck = self.random.sample(range(2, 14), 5)
        self.count = self.bad_frames = self.bad_replies = 0
        self.most = len(self.struck)
        self.began = None  # when the first frame came

    def is_struck(self, kind):
        if self.which not in (BOTH, kind):
            return False
        self.count += 1
        return self.count in self.struck

    def flipped(self, data):
        at = self.random.randrange(len(data))
        return data[:at] + bytes((data[at] ^ 1 << self.random.randrange(8),)) + data[at + 1 :]

    def there(self, frame):
        self.began = self.began or time.monotonic()
        is_struck = self.is_struck(FRAMES)
        self.bad_frames += is_struck
        # a frame is struck behind its first bytes, so that it stays one
        return frame[:3] + self.flipped(frame[3:]) if is_struck and len(frame) > 3 else frame

    def back(self, reply):
        is_struck = self.is_struck(REPLIES)
        self.bad_replies += is_struck
        return self.flipped(reply) if is_struck else reply


# ---- Back at full speed


# The block that is damaged, and how many new ones behind it may take longer.
DAMAGED, MAY_BE_SLOW = 10, 2
# No wait of either end is shorter, in seconds. On a busy machine one block in four may take as long.
SHORTEST_WAIT, ONE_IN = 1.0, 4


class OneBad(Clean):
    """A line that damages one block, and keeps the moment at which each new frame was written."""

    def __init__(self):
        self.frame, self.moments = b"", []
        self.bad_frames, self.bad_replies, self.most = 0, 0, 1

    def there(self, frame):
        if frame != self.frame:
            self.frame = frame
            self.moments.append(time.monotonic())
        if len(self.moments) == DAMAGED and not self.bad_frames:
            self.bad_frames = 1
            return frame[:-1] + bytes((frame[-1] ^ 1,))
        return frame


class BadEnd(Clean):
    """A line that damages the block that ends a batch."""

    def __init__(self):
        self.bad_frames, self.bad_replies, self.most = 0, 0, 1

    def there(self, frame):
        if len(frame) < 128 or any(frame[3:]):
            return frame
        self.bad_frames += 1
        return frame[:-1] + b"\x01"


def recovers(board):
    """Two blocks behind a damaged one, blocks are not waited for any more."""
    data, line = random.Random(5).randbytes(40_000), OneBad()
    with board.started() as port, tempfile.TemporaryDirectory(prefix="ymodem-") as here:
        start = board.ready(port, data)
        with sending(write_files(here, [("image.bin", data)]), line) as (sender, called):
            port.carry(called())
            sender.ended().wants(0, "sender done 1 finished\n")
        board.wants_loaded(port, data, start)
    first, last = DAMAGED + MAY_BE_SLOW, len(line.moments) - 3
    took = [line.moments[at + 1] - line.moments[at] for at in range(first, last)]
    assert (
        sum(it >= SHORTEST_WAIT for it in took) <= len(took) // ONE_IN
    ), "the blocks behind took %s s" % ["%.1f" % it for it in took]
