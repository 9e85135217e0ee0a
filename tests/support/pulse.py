"""Whether this machine keeps time.

Every end waits for times that are those of a line: a second within a delivery, three for a frame,
ten for a reply. What a check shows of them it shows on a machine that runs a process when it is
due. A pulse beats all the while, and knows how late its beats were: where one was late by more than
`TOLERATED`, the ends, the relay and the peers of the checks that ran meanwhile may have been as
late, at any place, and a check that failed shows nothing.
"""

import functools
import threading
import time

BEAT = 0.02
TOLERATED = 0.25

# For so many seconds a check is made again and again on a machine that does not keep time.
WORTH = 900


class Certain(AssertionError):
    """What no machine excuses: that an end said what is not so."""


# Before it is made again, the machine has to have kept time for so many seconds, or so many have
# passed.
CALM, PATIENCE = 3, 120


class Pulse(threading.Thread):
    """Beats, and keeps the beats that were late."""

    def __init__(self):
        super().__init__(daemon=True)
        self.late = []
        self.worst = 0.0
        self.start()

    def run(self):
        due = time.monotonic() + BEAT
        while True:
            time.sleep(max(0.0, due - time.monotonic()))
            now = time.monotonic()
            self.worst = max(self.worst, now - due)
            if now - due > TOLERATED:
                self.late.append((due, now))
            due = now + BEAT

    def note(self, began, within):
        """Takes down that what began then is done only now, where that is later than so many
        seconds."""
        now = time.monotonic()
        if now - began > within:
            self.late.append((began, now))

    def was_late(self, since):
        """Whether a beat was late since then."""
        return any(now > since for _, now in list(self.late))

    def shows_nothing(self, since, first):
        """Whether what has failed since then shows nothing, and is worth another try, where the
        first one began at that time."""
        return self.was_late(since) and time.monotonic() - first < WORTH

    def wait_for_calm(self):
        """Waits until the machine keeps time again, or for as long as that is worth."""
        began = time.monotonic()
        while True:
            now = time.monotonic()
            is_calm = now - began > CALM and not self.was_late(now - CALM)
            if is_calm or now - began > PATIENCE:
                return
            time.sleep(BEAT * 5)


@functools.cache
def beating():
    """The pulse of this process, from its first use on."""
    return Pulse()
