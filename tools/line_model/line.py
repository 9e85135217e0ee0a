"""A line between two ends, and the time on it: a discrete-event simulation without a wall clock.

An end is a generator. It yields `Read(wait)`, and is sent the bytes that came, or None where
nothing came for so long; `Write(data)`; or `Sleep(wait)`. All times are whole microseconds.
"""

import heapq
import random
from dataclasses import dataclass, field

SECOND = 1_000_000
MS = 1000
REACTION = 100
ROOM = 2048


@dataclass
class Read:
    wait: int
    room: int = ROOM


@dataclass
class Write:
    data: bytes


@dataclass
class Sleep:
    wait: int


@dataclass
class Way:
    """One direction of a line."""

    delay: int = 0
    jitter: int = 0
    baud: int = 115_200
    lost: float = 0.0
    flipped: float = 0.0
    doubled: float = 0.0
    # (from, to): what would arrive between these moments arrives at the second one
    stalls: tuple = ()
    # the numbers of the writes that lose a byte
    damaged: tuple = ()


@dataclass
class Echo:
    """What an end's own line gives back to it: how late, and how much of each write."""

    after: int = 0
    keep: int = 1 << 20
    lost: float = 0.0


@dataclass(order=True)
class Event:
    at: int
    number: int
    run: object = field(compare=False)


class End:
    """One end of the line, and what came to it."""

    def __init__(self, line, name, program):
        self.line, self.name, self.program = line, name, program
        self.inbox = bytearray()
        self.read = None
        self.token = 0
        self.is_over = False
        self.result = None

    def step(self, value):
        """Runs the program on to its next read or sleep."""
        while True:
            try:
                asked = self.program.send(value)
            except StopIteration as stop:
                self.is_over, self.result = True, stop.value
                return
            value = None
            if isinstance(asked, Write):
                self.line.wrote(self, asked.data)
                continue
            self.token += 1
            if isinstance(asked, Read):
                self.read = asked
                if self.inbox:
                    self.line.after(REACTION, self.give, self.token)
                else:
                    self.line.after(max(0, asked.wait), self.give, self.token)
            else:
                self.line.after(max(0, asked.wait), self.wake, self.token)
            return

    def give(self, token):
        if token != self.token or self.is_over or self.read is None:
            return
        room, self.read = self.read.room, None
        if self.inbox:
            got = bytes(self.inbox[:room])
            del self.inbox[:room]
            self.step(got)
        else:
            self.step(None)

    def wake(self, token):
        if token == self.token and not self.is_over:
            self.step(None)

    def came(self, data):
        was_empty = not self.inbox
        self.inbox += data
        if was_empty and self.read is not None:
            self.line.after(REACTION, self.give, self.token)


class Line:
    """Two ends, the ways between them, and the events to come."""

    def __init__(self, seed, there=None, back=None, echoes=(None, None), log=None, flips=()):
        self.now, self.flips = 0, flips
        # whether a write of either end counts among those of which a bit is flipped
        self.counts = (True, True)
        self.chance = random.Random(seed)
        self.events, self.number = [], 0
        self.ways = [there or Way(), back or Way()]
        self.echoes = echoes
        self.free = [0, 0]
        self.last = [0, 0]
        self.echoed = [0, 0]
        self.writes = [0, 0]
        self.ends = []
        self.log = log

    def after(self, wait, run, *values):
        self.number += 1
        heapq.heappush(self.events, Event(self.now + wait, self.number, lambda: run(*values)))

    def flip(self, data):
        """Strikes a frame behind its first bytes, so that it stays one, and a reply anywhere."""
        head = 3 if len(data) > 3 else 0
        place = head + self.chance.randrange(len(data) - head)
        struck = bytes([data[place] ^ 1 << self.chance.randrange(8)])
        return data[:place] + struck + data[place + 1 :]

    def damage(self, side, data):
        way = self.ways[side]
        number = self.writes[side]
        counted = sum(it for it, counts in zip(self.writes, self.counts) if counts)
        if self.counts[side] and counted + 1 in self.flips:
            data = self.flip(data)
        self.writes[side] += 1
        if number in way.damaged and len(data) > 5:
            place = 3 + self.chance.randrange(len(data) - 3)
            data = data[:place] + data[place + 1 :]
        elif number in way.damaged:
            return b""
        if not (way.lost or way.flipped or way.doubled):
            return data
        out = bytearray()
        for byte in data:
            kind = self.chance.random()
            if kind < way.lost:
                continue
            if kind < way.lost + way.flipped:
                out.append(byte ^ (1 << self.chance.randrange(8)))
            elif kind < way.lost + way.flipped + way.doubled:
                out += bytes([byte, byte])
            else:
                out.append(byte)
        return bytes(out)

    def wrote(self, end, data):
        side = self.ends.index(end)
        if self.log is not None:
            self.log.append((self.now, "><"[side], data))
        self.carry(side, self.damage(side, data))
        echo = self.echoes[side]
        if echo is not None:
            kept = bytes(b for b in data[: echo.keep] if self.keeps(echo))
            at = max(self.now + echo.after, self.echoed[side])
            for start in range(0, len(kept), 256):
                at += len(kept[start : start + 256]) * 10 * SECOND // self.ways[side].baud
                self.after(at - self.now, end.came, kept[start : start + 256])
            self.echoed[side] = at

    def keeps(self, echo):
        return not echo.lost or self.chance.random() >= echo.lost

    def carry(self, side, data):
        """Paces the bytes out, and hands them on in pieces, in order."""
        way = self.ways[side]
        at = max(self.now, self.free[side])
        start = 0
        while start < len(data):
            size = self.chance.choice((1, 2, 64, 300, 700))
            piece = data[start : start + size]
            start += size
            at += len(piece) * 10 * SECOND // way.baud
            comes = at + way.delay + (self.chance.randrange(way.jitter + 1) if way.jitter else 0)
            for begin, end in way.stalls:
                if begin <= comes < end:
                    comes = end
            comes = max(comes, self.last[side])
            self.last[side] = comes
            self.after(comes - self.now, self.ends_came, 1 - side, piece)
        self.free[side] = at

    def ends_came(self, side, piece):
        self.ends[side].came(piece)

    def run(self, sender, receiver, until=9000 * SECOND):
        """Runs both until they are over; answers their results, and the moment of the later one."""
        self.ends = [End(self, "sender", sender), End(self, "receiver", receiver)]
        for end in self.ends:
            self.after(0, end.step, None)
        while self.events and not all(end.is_over for end in self.ends):
            event = heapq.heappop(self.events)
            if event.at > until:
                break
            self.now = event.at
            event.run()
        return [end.result for end in self.ends], self.now
