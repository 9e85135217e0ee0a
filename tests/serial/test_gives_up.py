"""`ymodem-tty send` of a transfer that failed: a loader that waits on is cancelled."""

import os

from support.cable import plug, settings
from support.cases import case, cases
from support.plug_end import End
from support.program import folders, wants_same, write_files
from support.terminal import UnderTerminal
from support.tty_script import CANCEL, ENVIRONMENT, FILES, SCRIPT, is_running
from support.waits import wait_until

TOLD = b"ymodem-tty: the other end may wait on: it is told"


@cases(
    case("ymodem-tty send, cancelled, tells so more than once", [], True),
    case("ymodem-tty send --quiet, cancelled, does so in silence", ["--quiet"], False),
)
def test_calls_off(options, is_told):
    """More CAN follow, who looks is told why it takes longer, and the line is set as before."""
    with folders() as (here, _), plug() as it:
        paths, before = write_files(here, FILES), settings(it.path)
        words = [SCRIPT, "--device", it.path, "send", *options, *paths]
        shown = UnderTerminal(words, env=ENVIRONMENT)
        try:
            wait_until(lambda: is_running(shown.child.pid), "a transfer began")
            os.write(it.inner, CANCEL[:2])
            End(it).wants(CANCEL + CANCEL)
            wants_same({"status": shown.ended()}, {"status": 1})
            wants_same({"told": shown.shows(TOLD)}, {"told": is_told})
        finally:
            shown.stop()
        wants_same({"settings": settings(it.path)}, {"settings": before})
