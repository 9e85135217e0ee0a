"""Runs of the machine, as cases of `line_cases`: `python3 compare.py COUNT SEED`.

It prints two lines of `crates/line_cases/stdin`. For a longer comparison give the lines to the
program, which tells how many of its answers are these.
"""

import random
import sys

from ends import REPLY, WITHIN
from rule import Timing

FRAMES = (
    bytes([1, 0, 255, 97, 26]),
    bytes([1, 1, 254, 6, 26]),
    bytes([1, 2, 253, 6, 26]),
    bytes([4]),
    bytes([1, 0, 255, 0, 26]),
    bytes([6]),
    bytes([6, 67]),
    bytes([21]),
    bytes([67]),
    bytes([1, 0, 255, 98, 0, 48, 32, 26]),
)
WRITES = {"sender": (0, 1, 2, 3, 4, 3, 1, 2, 3, 9, 9), "receiver": (5, 6, 7, 8, 8, 5)}
BYTES = {
    "sender": (6, 6, 6, 21, 67, 24, 1, 2, 4, 97, 255, 254),
    "receiver": (1, 2, 4, 24, 67, 6, 0, 255),
}
STEPS = (0, 0, 1, 5, 12, 90, 300, 900, 1100, 2100, 3000, 10000)
OWED = ("nothing", "one", "late", "several", "likely")
VAIN = ("again", "ack", "quiet")


class Run:
    """A run by chance, and the rows of what it answered."""

    def __init__(self, role, seed):
        self.role, self.chance = role, random.Random(seed)
        self.timing, self.now = Timing(role), 1000
        self.written, self.index, self.rows = b"", None, []

    def row(self, act, value, answer):
        self.rows.append("%s:%d:%d:%d" % (act, value, self.now, answer))

    def some_bytes(self):
        if self.chance.random() < 0.6:
            return [self.chance.choice(BYTES[self.role])]
        return self.chance.choice((self.written, FRAMES[1], bytes([24, 24]), bytes([6, 67])))

    def hears(self):
        for byte in self.some_bytes():
            said = self.timing.byte(byte, self.written, self.now)
            self.row("byte", byte, len(said) if said[-1:] in (b"", bytes([byte])) else 3)

    def waits(self):
        kind = self.chance.randrange(2)
        self.row("until", kind, self.timing.until((REPLY, WITHIN)[kind], self.now))

    def expires(self):
        kind = self.chance.randrange(2)
        vain = self.timing.expired((REPLY, WITHIN)[kind], self.now)
        self.row("expired", kind, VAIN.index(vain))

    def cancels(self):
        was, self.timing.has_cancel = self.timing.has_cancel, False
        self.row("cancel", 0, was)

    def writes(self):
        timing, index = self.timing, self.chance.choice(WRITES[self.role])
        if self.index is not None and self.chance.random() < 0.4:
            index = self.index
        clearing = timing.clearing(FRAMES[index], self.now)
        self.row("clearing", index, timing.clear_at(clearing))
        for _ in range(self.chance.choice((0, 0, 1, 3))):
            byte = self.chance.choice((6, 6, 21, 67, 24, 24, 1))
            self.now += self.chance.choice((0, 3, 200))
            timing.dropped(clearing, byte, self.written, self.now)
            self.row("dropped", byte, timing.clear_at(clearing))
        timing.wrote(FRAMES[index], clearing, self.now)
        self.written, self.index = FRAMES[index], index
        owed = OWED.index(timing.out.owed)
        self.row("wrote", index, timing.slowest * 16 + owed * 2 + (0 < timing.shaken))

    def steps(self, count):
        acts = (self.hears, self.hears, self.hears, self.waits, self.expires, self.writes)
        while len(self.rows) < count:
            self.now += self.chance.choice(STEPS)
            self.chance.choice(acts + (self.writes, self.cancels))()
        return self.rows[:count]


if __name__ == "__main__":
    count, seed = int(sys.argv[1]), int(sys.argv[2])
    for role in ("sender", "receiver"):
        print("timing %s | %s" % (role, " ".join(Run(role, seed).steps(count))))
