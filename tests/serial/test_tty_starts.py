"""How `ymodem-tty` may be started: with streams that are closed, and with a limit of its files."""

import os
import random
import subprocess

from support.cable import cable, set_for_ticks, settings
from support.cases import case, cases, sentence
from support.on_line import ends_with, says, started
from support.program import (
    LIMIT,
    PROGRAM,
    copy_program,
    file_lines,
    folders,
    wants_same,
    wants_stored,
    write_files,
    write_program,
)
from support.tty_script import CANCEL, ENVIRONMENT, LOGIN, SCRIPT

CHANCE = random.Random(37)
FILES = [("one.bin", CHANCE.randbytes(40_000)), ("none", b""), ("two", CHANCE.randbytes(700))]
FINISHED = file_lines(FILES) + "receiver files 3 finished\n"
# What a receiver writes to the line where all goes well.
ASKS = b"C\x06\x15"
# So many blocks are less than the first file, whether a shell takes 512 or 1024 bytes for one.
BLOCKS = 16
# What is told of a program that is named, and not there.
MISSING = "is missing, which YMODEM names"


def received(shell, folders_of_both, status, status_of_sender):
    """A line of the shell starts `ymodem-tty receive`, whose words are behind it, and `ymodem sb`
    sends. What is told when both have ended so, and what the receiver wrote to the line."""
    here, there = folders_of_both
    with cable() as it:
        set_for_ticks(it.near.path)
        words = [SCRIPT, "--device", it.far.path, "receive", "--verbose"]
        paths = write_files(here, FILES)
        with (
            started(["sh", "-c", shell, "sh", *words], there, env=ENVIRONMENT) as script,
            started([PROGRAM, "sb", "--line", it.near.path, *paths], here) as sender,
        ):
            said = ends_with(script, status)
            ends_with(sender, status_of_sender)
        return *said, bytes(it.back)


@cases(
    case("ymodem-tty receive, without standard input", "<&-", FINISHED),
    case("ymodem-tty receive, without standard output", ">&-", ""),
    case("ymodem-tty receive, without standard error", "2>&-", FINISHED),
    case("ymodem-tty receive, without standard input and error", "<&- 2>&-", FINISHED),
    case("ymodem-tty receive, without standard output and error", ">&- 2>&-", ""),
    case("ymodem-tty receive, without any standard stream", "<&- >&- 2>&-", ""),
)
def test_closed_streams(closed, told):
    """The line and the files have other numbers than what is closed: what is told there goes
    neither to the line nor into a file."""
    with folders() as both:
        out, err, written = received('exec "$@" ' + closed, both, 0, 0)
        wants_same({"told": out, "written": written.strip(ASKS)}, {"told": told, "written": b""})
        assert ("receiving one.bin" in err) == ("2>" not in closed), "it said %r" % err
        wants_stored(both[1], FILES)


@sentence("ymodem-tty receive, of a file that is larger than files may be")
def test_too_large():
    """The program is not killed by it: it tells it, cancels, and leaves no part."""
    with folders() as both:
        limited = 'ulimit -f %d; exec "$@"' % BLOCKS
        out, err, written = received(limited, both, 3, 1)
        wants_same({"told": out}, {"told": "receiver files 0 sink-failed\n"})
        assert "cannot store 'one.bin'" in err, "it said %r" % err
        assert CANCEL[:2] in written, "the other end was not told"
        wants_stored(both[1], [])


THIS_TERMINAL = b"ymodem-tty: the line is this terminal: ^X ^X ends it\n"


@cases(
    case("ymodem-tty receive, at the terminal that is the line", [SCRIPT]),
    case("the same, which is named as one's own", [*LOGIN, SCRIPT, "--device", "/dev/tty"]),
    *(
        case("the same, which is named as what %s leads to" % it, [SCRIPT, "--device", it])
        for it in ("/dev/stdin", "/dev/stdout", "/dev/stderr", "/dev/fd/2", "/proc/self/fd/2")
    ),
)
def test_same_terminal(words):
    """As after a login over the line, which is set for whoever types: while files go the line has
    what the ends write, and no more. Then it is set as before."""
    with folders() as (here, there), cable() as it:
        set_for_ticks(it.near.path)
        subprocess.run(["stty", "-F", it.far.path, "sane"], check=True)
        before = settings(it.far.path)
        far = os.open(it.far.path, os.O_RDWR | os.O_NOCTTY)
        how = {"stdin": far, "stdout": far, "stderr": far, "env": ENVIRONMENT}
        sent = [PROGRAM, "sb", "--line", it.near.path, *write_files(here, FILES)]
        with started([*words, "receive"], there, **how) as script, started(sent, here) as sender:
            os.close(far)
            assert script.wait(LIMIT) == 0, "its status"
            ends_with(sender, 0)
        wants_same({"settings": settings(it.far.path)}, {"settings": before})
        written, told = bytes(it.back), FINISHED.encode()
        assert written.startswith(THIS_TERMINAL), "it begins with %r" % written[:100]
        between = written.removeprefix(THIS_TERMINAL).removesuffix(told)
        wants_same({"written": between.strip(ASKS)}, {"written": b""})
        wants_stored(there, FILES)


NO_SPEED, NO_FLOW = "'%s' is no speed: bits a second", "'' is no flow control: none, hard or soft"


@cases(
    case("a device without a name is refused", "--device= receive", "no DEVICE behind --device"),
    case("a device that is not named is refused", "--device", "no DEVICE behind --device"),
    case("a speed is a number", "--speed sane receive", NO_SPEED % "sane"),
    case("a speed is not empty", "--speed= receive", NO_SPEED % ""),
    case("a speed is none that hangs up", "--speed 0 receive", NO_SPEED % "0"),
    case("a flow control is not empty", "--flow= receive", NO_FLOW),
)
def test_refused_words(words, told):
    with folders() as (here, _):
        with started([SCRIPT, *words.split()], here, env=ENVIRONMENT) as script:
            _, err = ends_with(script, 2)
    assert err.startswith("ymodem-tty: %s\n" % told), "it said %r" % err


def asked_of_stty(here, there, program, status):
    """What `ymodem-tty` with this program asks `stty` for, of a line, and what it tells."""
    (asked,) = write_files(here, [("asked", b"")])
    stand_in = '#!/bin/sh\necho "$*" >> %s\nexec /usr/bin/stty "$@"\n' % asked
    write_program(os.path.join(here, "stty"), stand_in)
    environment = {**ENVIRONMENT, "PATH": here + ":" + os.environ["PATH"], "YMODEM": program}
    with cable() as it:
        words = [SCRIPT, "--device", it.far.path, "receive"]
        with started(words, there, env=environment) as script:
            _, err = ends_with(script, status)
    with open(asked, encoding="utf-8") as file:
        return file.read().splitlines(), err


@sentence("a line is set to eight bits without parity")
def test_eight_bits():
    """A pseudo terminal has no others. So what `stty` is asked for is looked at."""
    with folders() as (here, there):
        asked, _ = asked_of_stty(here, there, "true", 0)
    assert any(" cs8 -parenb " in line for line in asked), "it was not asked for"


@cases(
    case("ymodem-tty, of a ymodem that is not there", "./none", 127, MISSING),
    case("ymodem-tty, of a ymodem not on the path", "none", 127, MISSING),
    case("ymodem-tty, of a ymodem that may not be run", "./plain", 126, "cannot be run"),
    case("ymodem-tty, of a ymodem that is a folder", "./folder", 126, "cannot be run"),
)
def test_cannot_start(program, status, told):
    """It is named, with the status of a shell. The line is not asked for, and stays as it is."""
    with folders() as (here, there):
        write_files(there, [("plain", b"#!/bin/sh\n")])
        os.mkdir(os.path.join(there, "folder"))
        asked, err = asked_of_stty(here, there, program, status)
    assert err == "ymodem-tty: '%s' %s\n" % (program, told), "it said %r" % err
    assert not any("raw" in line or "-g" in line for line in asked), asked


UNNAMED = {it: word for it, word in ENVIRONMENT.items() if it != "YMODEM"}


def write_stand_in(folder, told):
    """A ymodem in this folder, which tells so what it is asked for."""
    write_program(os.path.join(folder, "ymodem"), '#!/bin/sh\necho "%s $*"\n' % told)


@sentence("ymodem-tty, by its bare name in its own folder")
def test_in_its_folder():
    """A shell that is given the script by its bare name finds the ymodem beside it."""
    with folders() as (here, _):
        copy_program(SCRIPT, here)
        write_stand_in(here, "it has")
        words = ["sh", os.path.basename(SCRIPT), "receive", "--single", "in"]
        with started(words, here, env=UNNAMED) as script:
            says(script, 0, "it has rb --single in\n")


@cases(
    case("ymodem-tty, by a link, finds the ymodem beside the script", False, "the script's"),
    case("ymodem-tty, by a link, takes the ymodem beside the link first", True, "the link's"),
)
def test_by_a_link(has_own, told):
    """A link may lead to the script from a folder that has no ymodem, or another one."""
    with folders() as (here, there):
        os.symlink(copy_program(SCRIPT, here), os.path.join(there, "tty"))
        write_stand_in(here, "the script's")
        if has_own:
            write_stand_in(there, "the link's")
        words = [os.path.join(there, "tty"), "receive", "--single", "in"]
        with started(words, there, env=UNNAMED) as script:
            says(script, 0, told + " rb --single in\n")
