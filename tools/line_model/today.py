"""The rule of the port that lets the line clear as it is without a clock, to compare with."""

from ends import CANCEL, LIMIT, START, WITHIN
from line import SECOND, Read, Write

WAITS = {"sender": (10 * SECOND, SECOND), "receiver": (3 * SECOND, SECOND)}


class Plain:
    """A port without any rule."""

    def __init__(self, role, line):
        self.reply, self.within = WAITS[role]

    def read(self, wait, room):
        return (yield Read(self.within if wait == WITHIN else self.reply, room))

    def write(self, data):
        yield Write(data)


class Clearing:
    """It counts the writes whose answer did not come.

    Where more than one may be under way it drops what comes before it writes on.
    """

    def __init__(self, role, line):
        self.role = role
        self.reply, self.within = WAITS[role]
        self.owed, self.came = 0, 0
        self.is_quiet, self.waited, self.was_prompt = False, False, False
        self.last, self.is_repeat = b"", False
        self.held = b""

    def heard(self, got):
        if got is None:
            self.is_quiet = self.waited = True
        else:
            self.came = min(LIMIT, self.came + len(got))
            self.is_quiet = False
        return got

    def is_opening(self):
        is_fresh = not self.came and not self.waited and not self.is_repeat
        return self.role == "sender" and is_fresh and len(self.last) > 3 and self.last[1] == 0

    def read(self, wait, room):
        if self.held:
            got, self.held = self.held, b""
            return self.heard(got)
        if wait == WITHIN:
            return self.heard((yield Read(self.within, room)))
        for _ in range(10):
            got = yield Read(self.within, room)
            if not (self.is_opening() and got and set(got) == {START}):
                break
        else:
            got = yield Read(self.within, room)
        self.heard(got)
        if got is None:
            return self.heard((yield Read(self.reply - self.within, room)))
        return got

    def clear(self):
        want = 2 if self.role == "sender" else 1
        left, waits = want - self.is_quiet, 11 if self.role == "sender" else 1
        tail = b""
        while left and waits:
            got = yield Read(self.within)
            if got is None:
                left, waits, tail = left - 1, waits - 1, b""
                continue
            left = want
            tail += got
            place = tail if self.role == "sender" else tail[:2]
            if CANCEL in place:
                self.held = CANCEL
                return

    def write(self, data):
        same = data == self.last
        if self.role == "sender":
            taken = self.came and not same
            prompt = self.came and not self.waited and self.was_prompt
            confirming = len(data) == 1 and same and not self.is_repeat and prompt
        else:
            taken, confirming = 0 < self.came < LIMIT and not self.is_quiet, False
        clears = (self.came >= LIMIT and not self.is_quiet) or (taken and self.owed > 1)
        if clears and not self.held:
            yield from self.clear()
        self.owed = 1 if taken else self.owed if confirming else min(2, self.owed + 1)
        if not same:
            self.was_prompt = not self.waited and not clears
        self.came, self.is_quiet, self.waited = 0, False, False
        self.last, self.is_repeat = data, same
        yield Write(data)


