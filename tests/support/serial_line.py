"""A serial line between a sender and a receiver: both ways at their own pace, byte by byte, as a
UART hands them on.

It carries ten bits for each byte. At low speeds each byte goes out by itself, at higher ones what a
millisecond carries. A line can stand still before a frame or a reply, and then hands on what it
held at its pace; and it can carry noise.
"""

import contextlib
import random
import socket
import threading
import time

from support.frames import ACK, CAN, EOT, NAK, SOH, START, STX, split
from support.program import LIMIT, connected
from support.relay import Clean, Relay, at_once, hand, read
from support.waits import wait_for_asks


BITS = 10
SLICE = 0.001

# No frame begins in this noise, wherever a delivery begins, and no byte of that one is a reply.
NOISE_THERE = bytes(set(range(256)) - {SOH, STX, EOT, CAN})
NOISE_BACK = bytes(set(range(256)) - {ACK, NAK, CAN, START})


def frames_from(end):
    """What a sender writes, frame by frame."""
    held = b""
    while came := read(end):
        frames, held = split(held + came)
        yield from frames
    if held:
        yield held


def replies_from(end):
    """What a receiver writes, as it comes."""
    while came := read(end):
        yield came


class Way(threading.Thread):
    """One way of a line: it takes what one end writes, piece by piece, and hands on what the line
    makes of each."""

    def __init__(self, pieces, made, target, baud):
        super().__init__(daemon=True)
        self.pieces, self.made, self.target = pieces, made, target
        self.rate = baud / BITS
        self.free = 0.0
        self.fault = None

    def run(self):
        try:
            for piece in self.pieces:
                self.carry(self.made(piece))
        except OSError:
            pass  # the end has gone, and its report tells why; or the line is cut
        except Exception as fault:  # told by the check
            self.fault = fault
        finally:
            with contextlib.suppress(OSError):
                self.target.shutdown(socket.SHUT_WR)

    def carry(self, data):
        """Hands bytes on, each when the line has carried it. On a machine that is late with that
        they come together, and the line keeps its pace."""
        begun, handed = max(self.free, time.monotonic()), 0
        while handed < len(data):
            time.sleep(max(begun + (handed + 1) / self.rate - time.monotonic(), SLICE))
            due = max(handed + 1, int((time.monotonic() - begun) * self.rate))
            hand(self.target, data[handed:due])
            handed = due
        self.free = begun + len(data) / self.rate


class SerialLine(Relay):
    """A relay with the pace of a serial line. Its ways do not wait for one another, so its line has
    to know that it is called from two threads. The receiver is there first: `due` tells when it has
    asked so many times, which then wait in the line, and the sender is to start.
    """

    def __init__(self, line, receiver_port, baud, asked=0):
        super().__init__(line, receiver_port)
        self.baud = baud
        self.asked = asked
        self.due = threading.Event()

    def run(self):
        try:
            with self.listener, connected(self.receiver_port) as receiver:
                wait_for_asks(receiver, self.asked)
                self.due.set()
                self.listener.settimeout(LIMIT)
                sender, _ = self.listener.accept()
                with sender:
                    self.carry(sender, receiver)
        except Exception as fault:  # told by the check
            self.fault = fault
        finally:
            self.due.set()

    def carry(self, sender, receiver):
        at_once(sender, receiver)
        ways = (
            Way(frames_from(sender), self.line.there, receiver, self.baud),
            Way(replies_from(receiver), self.line.back, sender, self.baud),
        )
        for way in ways:
            way.start()
        for way in ways:
            way.join()
            self.fault = self.fault or way.fault


class Counted(Clean):
    """A line that knows which frame of the batch it carries: a frame that is written again is none
    that is new."""

    def __init__(self):
        self.frame = b""
        self.at = -1

    def there(self, frame):
        if frame != self.frame:
            self.frame = frame
            self.at += 1
        return frame


class Standing(Counted):
    """A line that stands still once, before a frame or before the reply to it."""

    def __init__(self, at, seconds, is_reply):
        super().__init__()
        self.still_at, self.seconds, self.is_reply = at, seconds, is_reply
        self.has_stood = False

    def stand(self, is_reply):
        if self.at == self.still_at and is_reply == self.is_reply and not self.has_stood:
            self.has_stood = True
            time.sleep(self.seconds)

    def there(self, frame):
        super().there(frame)
        self.stand(False)
        return frame

    def back(self, reply):
        super().back(reply)
        self.stand(True)
        return reply


class Crossing(Counted):
    """A line that stands still before a frame for so long that the receiver asks for it, and then
    before the reply until the sender has written its copy: the reply and the copy cross. At another
    frame the line is cut."""

    def __init__(self, at, seconds, cut_at):
        super().__init__()
        self.cross_at, self.seconds, self.cut_at = at, seconds, cut_at
        self.copied = threading.Event()
        self.is_held = False

    def there(self, frame):
        is_copy = frame == self.frame
        super().there(frame)
        if self.at == self.cross_at:
            if is_copy:
                self.copied.set()
            else:
                time.sleep(self.seconds)
                self.is_held = True
        if self.at == self.cut_at:
            time.sleep(3)
            raise ConnectionAbortedError
        return frame

    def back(self, reply):
        if self.is_held and not self.copied.is_set():
            self.copied.wait(LIMIT)
            # the copy goes there at once, and the reply is on its way
        return reply


class Apart(Counted):
    """A line that hands on each copy of a frame in a read of its own: not before the reply to the
    one before it has been seen, or has not come for half a second."""

    def __init__(self):
        super().__init__()
        self.replied = threading.Event()
        self.copies = 0

    def there(self, frame):
        if frame == self.frame:
            self.copies += 1
            self.replied.wait(0.5)
        self.replied.clear()
        return super().there(frame)

    def back(self, reply):
        self.replied.set()
        return super().back(reply)


class Noisy(Counted):
    """A line that carries bursts of noise, of so many bytes: before or behind the frames and the
    replies with these numbers, once each."""

    def __init__(self, seed, there=(), back=(), is_behind=False):
        super().__init__()
        self.random = random.Random(seed)
        self.bursts = {False: dict(there), True: dict(back)}
        self.is_behind = is_behind

    def with_noise(self, data, is_reply, noise):
        burst = bytes(self.random.choices(noise, k=self.bursts[is_reply].pop(self.at, 0)))
        return data + burst if self.is_behind else burst + data

    def there(self, frame):
        return self.with_noise(super().there(frame), False, NOISE_THERE)

    def back(self, reply):
        return self.with_noise(super().back(reply), True, NOISE_BACK)

    def is_done(self):
        return not self.bursts[False] and not self.bursts[True]
