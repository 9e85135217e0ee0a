"""The browsers in which the page is tried, each with what its tests share."""

import functools
import threading

from support.bridge import serve
from support.chromium import Chromium
from support.empty_page import WEB
from support.firefox import Firefox
from support.skipping import Skipped

# What the tests have measured, to be told at the end.
NOTES = []


@functools.cache
def address():
    """The address of what is shipped."""
    return serve(WEB)


class Room:
    """A browser, which is started when the first test wants it, and the address of what is
    shipped."""

    def __init__(self, kind):
        self.kind, self.name, self.starting = kind, kind.name, threading.Lock()
        self.started = self.why_not = None
        self.are_rates_wanted = False

    @property
    def browser(self):
        with self.starting:
            if self.why_not:
                raise Skipped(self.why_not)
            if not self.started:
                try:
                    self.started = self.kind()
                except Skipped as why:
                    self.why_not = str(why)
                    raise
            return self.started

    @property
    def base(self):
        return address()

    def note(self, text):
        NOTES.append(text)

    def close(self):
        if self.started:
            self.started.close()


CHROMIUM = (Room(Chromium),)
BROWSERS = (*CHROMIUM, Room(Firefox))
