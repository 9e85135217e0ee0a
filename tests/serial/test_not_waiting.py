"""A line that somebody else who has it open has set not to wait: a call that the system refuses for
that is made again."""

import os
import random

from support.cable import cable, set_for_ticks
from support.cases import case, cases, sentence
from support.on_line import ends_with, started
from support.program import PROGRAM, file_lines, folders, wants_same, wants_stored, write_files
from support.tracing import at_paths, calls_of, strace
from support.waits import wait_until

CHANCE = random.Random(6)
FILES = [("first", CHANCE.randbytes(1500)), ("second", CHANCE.randbytes(300))]


def refusals(log):
    """The calls that were refused so far."""
    return [call for call in calls_of(log) if call.is_injected] if os.path.exists(log) else []


def refusing(log, path):
    """The words before a program of whose reads and writes of this line each other one is refused,
    from the first on."""
    return strace(log, *at_paths([path]), "-e", "inject=read,write:error=EAGAIN:when=1+2")


# So many reads that do not wait are fewer than those of one wait of a receiver, and more than those
# of all its waits would be, if a wait had as many of these as it has of reads that take a tick.
REFUSED = 600


@cases(
    case("a line that is set not to wait: sb", True),
    case("a line that is set not to wait: rb", False),
)
def test_each_other_call(is_sender):
    """All comes over, and both ends say so."""
    with folders() as (here, there), cable() as it:
        paths, log = write_files(here, FILES), os.path.join(here, "log")
        for end in (it.near, it.far):
            set_for_ticks(end.path)
        sends = refusing(log, it.near.path) if is_sender else ()
        receives = () if is_sender else refusing(log, it.far.path)
        with (
            started([*receives, PROGRAM, "rb", "--line", it.far.path, there], there) as receiver,
            started([*sends, PROGRAM, "sb", "--line", it.near.path, *paths], here) as sender,
        ):
            told = {"sb": ends_with(sender, 0), "rb": ends_with(receiver, 0)}
        report = file_lines(FILES) + "receiver files %d finished\n" % len(FILES)
        done = "sender done %d finished\n" % len(FILES)
        wants_same(told, {"sb": (done, ""), "rb": (report, "")})
        wants_stored(there, FILES)
        names = {call.name for call in calls_of(log) if call.is_injected}
        assert names == {"read", "write"}, "these were refused: %s" % ", ".join(sorted(names))


@sentence("a line that is set not to wait: rb, before anything comes")
def test_first_reads():
    """The first reads of the line are refused at once. It waits on, and all comes over."""
    with folders() as (here, there), cable() as it:
        paths, log = write_files(here, FILES), os.path.join(here, "log")
        for end in (it.near, it.far):
            set_for_ticks(end.path)
        refused = strace(
            log, *at_paths([it.far.path]), "-e", "inject=read:error=EAGAIN:when=1..%d" % REFUSED
        )
        with started([*refused, PROGRAM, "rb", "--line", it.far.path, there], there) as receiver:
            wait_until(
                lambda: len(refusals(log)) == REFUSED or receiver.poll() is not None,
                "reads were refused",
            )
            assert receiver.poll() is None, "it has ended: %r" % receiver.stderr.read()
            with started([PROGRAM, "sb", "--line", it.near.path, *paths], here) as sender:
                ends_with(sender, 0)
            ends_with(receiver, 0)
        wants_stored(there, FILES)
