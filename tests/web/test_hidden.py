"""The module in a page that is not shown: its waits end at whole seconds, and it is slower, but all
arrives."""

import random

import pytest
from support.cases import case, cases_in
from support.empty_page import Empty, received, sends
from support.program import folders, wants_same, wants_stored, write_files
from support.relay import Seeded
from support.rooms import BROWSERS
from support.web_peers import program_receives, program_sends


# Waits of such a page, as Chromium has them for the first five minutes.
HIDDEN = """
(() => {
  const wait = setTimeout;
  globalThis.setTimeout = (act, millis = 0) => {
    const now = performance.now();
    return wait(act, Math.ceil((now + millis) / 1000) * 1000 - now);
  };
})();
"""


def files():
    chance = random.Random(31)
    return [("file %d" % at, chance.randbytes(size)) for at, size in enumerate((0, 300, 9000))]


def damaged():
    return Seeded(55, 0.1, 3)


@pytest.mark.program
@cases_in(BROWSERS, case("not shown: sends to ymodem receive, three deliveries damaged"))
def test_sends(room):
    with folders() as (_, there), Empty(room, HIDDEN) as page:
        with program_receives(there, damaged()) as (bridge, ended):
            sends(page, bridge.address, files())
            assert ended().status == 0, "ymodem receive failed"
        wants_stored(there, files())


@pytest.mark.program
@cases_in(BROWSERS, case("not shown: receives from ymodem send, three deliveries damaged"))
def test_receives(room):
    with folders() as (here, _), Empty(room, HIDDEN) as page:
        with program_sends(write_files(here, files()), damaged()) as (bridge, ended):
            wants_same(received(page, bridge.address), dict(files()))
            assert ended().status == 0, "ymodem send failed"
