"""Standard streams that are closed when the program begins: no file and no line takes the place of
one, since what is told would be written there."""

import contextlib
import os

from support.cable import plug
from support.cases import case, cases, sentence
from support.on_line import started
from support.program import LIMIT, PROGRAM, folders, free_port, running, wants_stored, write_files
from support.waits import wait_until

WAYS = ("<&-", ">&-", "2>&-", "<&- >&- 2>&-")
STREAMS = {"<&-": (0,), ">&-": (1,), "2>&-": (2,), "<&- >&- 2>&-": (0, 1, 2)}
BODY = os.urandom(70_000)


def without(closed, *words):
    """The words that start the program with these streams closed."""
    return ["sh", "-c", 'exec "$0" "$@" ' + closed, PROGRAM, *map(str, words)]


def opened(process):
    """What a process has open, by number."""
    top, found = "/proc/%d/fd" % process, {}
    for number in os.listdir(top):
        with contextlib.suppress(OSError):
            found[int(number)] = os.readlink(os.path.join(top, number))
    return found


def stand_apart(process, closed, what):
    """Waits until the process has this open, and looks at what stands for the closed streams."""
    wait_until(lambda: any(it.startswith(what) for it in opened(process).values()), "it is open")
    found = opened(process)
    for number in STREAMS[closed]:
        assert found[number] == "/dev/null", "descriptor %d of %r" % (number, found)


@cases(*(case("a line is no closed stream: %s" % it, it) for it in WAYS))
def test_line(closed):
    with folders() as (here, there), plug() as it:
        sent = write_files(here, [("a", b"a")])
        for words in (("sb", "--line", it.path, *sent), ("rb", "--line", it.path, there)):
            with started(without(closed, *words), here) as child:
                stand_apart(child.pid, closed, it.path)


@cases(*(case("a connection is no closed stream: %s" % it, it) for it in WAYS))
def test_connection(closed):
    with folders() as (here, there):
        port = free_port()
        words = without(closed, "receive", "--eager", "--port", port, there)
        with started(words, here) as child:
            stand_apart(child.pid, closed, "socket:")


@sentence("a stored file is no closed stream")
def test_stored():
    """It has its own bytes, though no stream takes what is told."""
    with folders() as (here, there):
        port, files = free_port(), [("first", BODY), ("second", b"2")]
        words = without(WAYS[-1], "receive", "--eager", "--verbose", "--port", port, there)
        with started(words, here) as receiver:
            with running("send", "--port", port, *write_files(here, files)) as sender:
                sender.ended().wants(0, "sender done 2 finished\n")
            receiver.wait(LIMIT)
        wants_stored(there, files)
