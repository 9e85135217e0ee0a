"""Which parts `ymodem-tty receive` names when it is stopped: its own, and none of others in
the same folder."""

import contextlib
import os
import random
import re
import signal

from support.cable import cable, set_for_ticks
from support.cases import case, cases, sentence
from support.on_line import started
from support.program import PROGRAM, folders, wants_same, write_files
from support.storing import part_of
from support.tty_script import ENVIRONMENT, SCRIPT, piped, wants_status
from support.waits import wait_until

CHANCE = random.Random(38)
FILES = [("first.bin", CHANCE.randbytes(200_000))]
IN_THE_MIDDLE = 150_000
OWN = part_of("first.bin")
# Parts of others: one is left as it was, one grows, and one is new.
OLD, GROWS, NEW = part_of("old"), part_of("movie.mkv"), part_of("page")


@contextlib.contextmanager
def in_the_middle(here, there, into):
    """`ymodem-tty receive` into a folder, in the middle of a file."""
    with cable(hold_at=IN_THE_MIDDLE) as it:
        set_for_ticks(it.near.path)
        paths = write_files(here, FILES)
        words = [SCRIPT, "--device", it.far.path, "receive", *into]
        with (
            piped(words, there) as script,
            started([PROGRAM, "sb", "--line", it.near.path, *paths], here),
        ):
            wait_until(it.is_held.is_set, "the line came to the middle")
            yield script


def is_begun(at):
    """Whether a part of the file is there, with something in it."""
    with contextlib.suppress(FileNotFoundError):
        return os.path.getsize(os.path.join(at, OWN)) > 0
    return False


def named(said):
    """The parts that are said to be left."""
    return re.findall(r"^ymodem-tty: '(.*)' is left of a file: ", said, re.M)


@cases(
    case("ymodem-tty receive, stopped, names its own part alone", [], "./"),
    case("ymodem-tty receive, stopped, names its own part of a folder", ["in"], "in/"),
    case("ymodem-tty receive, stopped, of a folder like an option", ["--", "-in"], "./-in/"),
    case("ymodem-tty receive, stopped, of a folder like a bracket", ["("], "./(/"),
    case("ymodem-tty receive, stopped, of a folder without a name", [""], "./"),
    case("ymodem-tty receive, stopped, of a folder that begins with blanks", ["  in"], "  in/"),
)
def test_names_its_own(words, told):
    """Others have parts in that folder before, and write some meanwhile."""
    with folders() as (here, there):
        at = os.path.join(there, *words[-1:])
        os.makedirs(at, exist_ok=True)
        write_files(at, [(OLD, b"old"), (GROWS, b"some")])
        with in_the_middle(here, there, words) as script:
            wait_until(lambda: is_begun(at), "the part of the file has something")
            write_files(at, [(GROWS, b"some more"), (NEW, b"new")])
            script.send_signal(signal.SIGINT)
            said = wants_status("ymodem-tty", script, -signal.SIGINT)
        wants_same({"named": named(said)}, {"named": [told + OWN]})


@cases(
    case("ymodem-tty receive, stopped, names its part of a folder behind a link", "in", "link"),
    case("ymodem-tty receive, stopped, names its part of a folder of two lines", "two\nlines", None),
)
def test_names_it_in_full(folder, link):
    """The path leads to the part."""
    with folders() as (here, there):
        os.mkdir(os.path.join(there, folder))
        if link:
            os.symlink(folder, os.path.join(there, link))
        into = link or folder
        with in_the_middle(here, there, [into]) as script:
            wait_until(lambda: is_begun(os.path.join(there, folder)), "the part has something")
            script.send_signal(signal.SIGINT)
            said = wants_status("ymodem-tty", script, -signal.SIGINT)
        assert "ymodem-tty: '%s/%s' is left of a file: " % (into, OWN) in said, "it said %r" % said


@sentence("ymodem-tty receive, stopped with all that it started, names what is new")
def test_names_what_is_new():
    """The signal may have ended the program before it is looked at. What was there before, and is
    as it was, is none of its parts."""
    with folders() as (here, there):
        write_files(there, [(OLD, b"old")])
        with in_the_middle(here, there, []) as script:
            wait_until(lambda: is_begun(there), "the part of the file has something")
            os.killpg(script.pid, signal.SIGTERM)
            said = wants_status("ymodem-tty", script, -signal.SIGTERM)
        wants_same({"named": named(said)}, {"named": ["./" + OWN]})
