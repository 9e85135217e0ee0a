"""Why standard output or standard input failed, as somebody who looks is told it. What stands on
standard error of a pipe is the fault line alone."""

import contextlib
import os

from support.cases import case, cases, sentence
from support.explained import record_of
from support.program import PROGRAM, folders, free_port, run, running, write_files
from support.telling import FAULT, FILE, line
from support.terminal import UnderTerminal

FULL = "cannot write to standard output: no space left on device\n"
CLOSED = "cannot write to standard output: it is closed, or not open for this\n"
UNREAD = "cannot write to standard output: nobody reads what is written to it\n"
NO_INPUT = "cannot read standard input: it is closed, or not open for this\n"
NO_FILE = "cannot read standard input: not a regular file\n"
SCRIPT = b"ok 2\n"


@contextlib.contextmanager
def redirected(ways, *words):
    """The program under a terminal, with these of its streams elsewhere."""
    child = UnderTerminal(["sh", "-c", 'exec "$0" "$@" ' + ways, PROGRAM, *map(str, words)])
    try:
        yield child
    finally:
        child.stop()


def ends_so(status, told, ways, *words):
    """It shows these lines and nothing else, and ends with this status."""
    *before, last = (line(it) for it in told.splitlines())
    with redirected(ways, *words) as child:
        assert child.until(last) == b"".join(before), "what stands before %r" % last
        assert child.ended() == status, "the status"


@cases(
    case("why nothing is printed is told: play", ("play",)),
    case("why nothing is printed is told: play without its name", ()),
    case("why nothing is printed is told: explain", ("explain", record_of("whole")[0])),
    case("why nothing is printed is told: judge", ("judge", "receiver", "--list")),
)
def test_output(words):
    """A device that is full, and an output that is closed."""
    ends_so(3, FULL + FAULT, "< /dev/null > /dev/full", *words)
    ends_so(3, CLOSED + FAULT, "< /dev/null >&-", *words)


@sentence("why nothing is printed is told: --version")
def test_version():
    """It has no fault line."""
    ends_so(3, FULL, "> /dev/full", "--version")
    ends_so(3, CLOSED, ">&-", "--version")


@cases(
    case("why nothing is printed is told: loop", FULL, ["--verbose"]),
    case("why nothing is printed is not told by loop --quiet", "", ["--verbose", "--quiet"]),
    case("why nothing is printed is not told to a pipe", "", []),
)
def test_loop(told, flags):
    with open("/dev/full", "wb") as full:
        ended = run("loop", "-p", free_port(), *flags, given=SCRIPT, out=full)
    ended.wants(3, "", told + FAULT)


@sentence("why nothing is printed is told: nobody reads it")
def test_nobody_reads():
    read, write = os.pipe()
    os.close(read)
    try:
        ended = run("loop", "-p", free_port(), "--verbose", given=SCRIPT, out=write)
    finally:
        os.close(write)
    ended.wants(3, "", UNREAD + FAULT)


@sentence("why nothing is printed is told: send and receive")
def test_ends():
    """The files are stored all the same."""
    with folders() as (here, there), open("/dev/full", "wb") as full:
        port, paths = free_port(), write_files(here, FILE)
        words = ("receive", "-p", port, "--eager", "--verbose", there)
        with running(*words, out=full) as receive:
            sent = run("send", "-p", port, "--verbose", *paths, out=full)
            received = receive.ended()
    for ended in (sent, received):
        assert ended.status == 3 and ended.err.endswith("\n" + FULL + FAULT), ended.err
        assert ended.err.count(FULL) == 1, "it told it once: %r" % ended.err


@sentence("why nothing is printed is told of each connection of --keep")
def test_kept():
    with folders() as (here, there), open("/dev/full", "wb") as full:
        port = free_port()
        words = ("receive", "-p", port, "--eager", "--keep", "--verbose", there)
        with running(*words, out=full) as receive:
            for name in ("first", "second"):
                run("send", "-p", port, *write_files(here, [(name, b"a")])).wants(
                    0, "sender done 1 finished\n"
                )
                told = [receive.child.stderr.readline().decode()]
                while told[-1] != FAULT:
                    told.append(receive.child.stderr.readline().decode())
                assert told[-2] == FULL, "it told %r" % told


@cases(
    case("why no script is read is told: a folder", NO_FILE, "< /"),
    case("why no script is read is told: it is closed", NO_INPUT, "<&-"),
)
def test_input(told, ways):
    ends_so(3, told + FAULT, ways, "play")
    ends_so(3, told + FAULT, ways, "loop", "-p", free_port())


@sentence("why no record is read is told: standard input is a folder")
def test_record():
    ends_so(1, NO_FILE + "cannot read 'standard input'\n", "< /", "explain")
