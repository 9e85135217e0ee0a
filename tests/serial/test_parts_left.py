"""Parts that `ymodem rb` leaves where it is killed in the middle of a file, and the next one."""

import contextlib
import random

from support.cable import cable, set_for_ticks
from support.cases import case, cases, sentence
from support.on_line import ends_with, says, started
from support.program import (
    LIMIT,
    PROGRAM,
    file_lines,
    folders,
    stored,
    wants_same,
    wants_stored,
    write_files,
)
from support.storing import part_of, received, refused, wants_whole_front

CHANCE = random.Random(34)


# Long enough that some of it is in its part before all of it is there.
LONG = [("before", CHANCE.randbytes(100)), ("first.bin", CHANCE.randbytes(200_000))]
IN_THE_MIDDLE = 150_000
LEFT = part_of("first.bin")
REPLACED = "'%s', left from an earlier run, was replaced\n" % LEFT
HELD = (
    "cannot store 'first.bin': '%s' is in use by another program, may not be read, is no "
    "regular file, or may be a file of this batch; wait for that program, or move it away\n" % LEFT
)


@contextlib.contextmanager
def in_the_middle(here, there):
    """`ymodem rb` in the middle of the second file of a batch, for as long as this lasts, and the
    line, which goes on at the end where it may."""
    with cable(hold_at=IN_THE_MIDDLE) as it:
        for end in (it.near, it.far):
            set_for_ticks(end.path)
        paths = write_files(here, LONG)
        with (
            started([PROGRAM, "rb", "--line", it.far.path], there) as receiver,
            started([PROGRAM, "sb", "--line", it.near.path, *paths], here),
        ):
            assert it.is_held.wait(LIMIT), "the line never came to the middle"
            yield receiver, it


def left_by_a_killed_one(here, there):
    """What `ymodem rb` leaves that is killed in the middle of a file."""
    with in_the_middle(here, there) as (receiver, _):
        receiver.kill()
        receiver.wait(LIMIT)
    count, parts = wants_whole_front(stored(there), LONG)
    wants_same({"left": (count, parts)}, {"left": (1, [LEFT])})


def rb_of_the_last(here, there, words, status, out, told):
    """`ymodem rb` of the last file alone: how it ends, and what is told of parts."""
    with cable() as it:
        for end in (it.near, it.far):
            set_for_ticks(end.path)
        paths = write_files(here, LONG[1:])
        with (
            started([PROGRAM, "rb", "--line", it.far.path, *words], there) as receiver,
            started([PROGRAM, "sb", "--line", it.near.path, *paths], here),
        ):
            said, err = ends_with(receiver, status)
    found = [line for line in err.splitlines(True) if LEFT in line]
    wants_same({"said": (said, found)}, {"said": (out, told)})
    assert told or status != 0 or not err, "it told %r" % err


@cases(
    case("rb: a part that was left is replaced, and told", ["--verbose"], [REPLACED]),
    case("rb: a part that was left is replaced, where nobody looks", [], []),
    case("rb: a part that was left is replaced, --quiet", ["--verbose", "--quiet"], []),
    case(
        "rb: a part that was left is replaced, --discard-parts",
        ["--discard-parts", "--verbose"],
        [REPLACED],
    ),
)
def test_comes_whole_again(words, told):
    """`ymodem rb` is killed in the middle of a file. The next one receives it whole, and tells once
    which part it replaced, to somebody who looks."""
    with folders() as (here, there):
        left_by_a_killed_one(here, there)
        out = file_lines(LONG[1:]) + "receiver files 1 finished\n"
        rb_of_the_last(here, there, words, 0, out, told)
        wants_stored(there, LONG)


@sentence("rb: a part that another one writes is left alone, and told")
def test_held_part():
    """What another `ymodem rb` is writing is left alone, and told. That one goes on."""
    with folders() as (here, there), in_the_middle(here, there) as (receiver, line):
        rb_of_the_last(here, there, ["--verbose"], 3, "receiver files 0 sink-failed\n", [HELD])
        line.go_on.set()
        says(receiver, 0, file_lines(LONG) + "receiver files 2 finished\n")
        wants_stored(there, LONG)


@sentence("rb: a part that was left is refused by receive")
def test_receive_refuses_it():
    """`receive` refuses a file of which a killed `rb` left a part, and says by which flag it does
    not."""
    with folders() as (here, there):
        left_by_a_killed_one(here, there)
        before = stored(there)
        for words in ((), ("--verbose",)):
            ended, _ = received(LONG[1:], there, words)
            wants_same(
                {"status": ended.status, "out": ended.out},
                {"status": 3, "out": refused(0, LONG[1:])},
            )
            told = "or use --discard-parts where an earlier run left it\n"
            wants_same({"told": told in ended.err}, {"told": bool(words)})
            wants_same(stored(there), before)
        received(LONG[1:], there, ["--discard-parts"])[0].wants(
            0, file_lines(LONG[1:]) + "receiver files 1 finished\n"
        )
        wants_stored(there, LONG)
