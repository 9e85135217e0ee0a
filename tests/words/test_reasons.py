"""Why the system refused a call, in words: of a file, of a connection and of a line."""

import os

from support.cases import case, cases, sentence
from support.on_line import ends_with, started
from support.program import PROGRAM, connected, folders, free_port, running, write_files
from support.storing import received, told as told_of
from support.telling import FAULT, FILE, connecting, listening
from support.tracing import at_paths, calls_of, strace

BROKE = "the device failed, or was unplugged"
LATE = "nothing answered in time"
MEMORY = "out of memory"


@cases(
    case("a reason of the system: its device", "EIO", BROKE),
    case("a reason of the system: no device", "ENXIO", "no such device"),
    case("a reason of the system: its links", "ELOOP", "too many levels of symbolic links"),
    case("a reason of the system: others", "EMFILE", "too many files are open"),
    case("a reason of the system: its user", "EBUSY", "another program uses it"),
    case("a reason of the system: a lease", "EAGAIN", "it was not ready"),
    case("a reason of the system: its locks", "ENOLCK", "no lock can be had for it"),
    case("a reason of the system: its disk", "EUCLEAN", "its file system is damaged"),
    case("a reason of the system: its medium", "ENOMEDIUM", "no medium is in it"),
    case("a reason of the system: its bytes", "EREMOTEIO", BROKE),
    case(
        "a reason of the system: its key",
        "ENOKEY",
        "the key that it is encrypted by is missing or has expired",
    ),
    case("a reason of the system: by number", "ENOEXEC", "error 8 of the system"),
)
def test_refused_by_the_system(error, why):
    """A file that the system does not open."""
    with folders() as (here, log):
        path = write_files(here, FILE)[0]
        refusing = ("-e", "inject=open,openat:error=" + error)
        before = strace(os.path.join(log, "log"), *at_paths([path]), *refusing)
        words = ("send", "-p", free_port(), "--verbose", path)
        with running(*words, before=before) as send:
            send.ended().wants(3, "", "cannot open '%s': %s\n" % (path, why) + FAULT)


@cases(
    case("a reason of the system: a reset", "ECONNRESET", "the other end broke the connection off"),
    case("a reason of the system: no way", "EHOSTUNREACH", "the network does not lead there"),
    case("a reason of the system: a wait", "ETIMEDOUT", "nothing answered in time"),
    case(
        "a reason of the system: no port", "EADDRNOTAVAIL", "no port of this machine is free for it"
    ),
)
def test_no_connection(error, why):
    """A connection that the system does not make."""
    with folders() as (here, log):
        path, port = write_files(here, FILE)[0], free_port()
        before = strace(os.path.join(log, "log"), "-e", "inject=connect:error=" + error)
        with running("send", "-p", port, "--verbose", path, before=before) as send:
            told = "no connection at 127.0.0.1:%d: %s\n" % (port, why)
            send.ended().wants(3, "", connecting(port) + told + FAULT)


@sentence("a reason of the system: no connection can be taken")
def test_takes_no_connection():
    """A receiver whose listener is broken. What passes it waits out (tests/peers)."""
    with folders() as (log, there):
        port = free_port()
        refusing = ("-e", "inject=accept,accept4:error=EBADF")
        before = strace(os.path.join(log, "log"), *refusing)
        with running("receive", "-p", port, "--verbose", there, before=before) as receive:
            told = "no connection at 127.0.0.1:%d: it is closed, or not open for this\n" % port
            receive.ended().wants(3, "", listening(port) + told + FAULT)


@cases(
    case("a reason of the system: a read of a connection", "recvfrom:error=EIO", BROKE),
    case("a reason of the system: a write to a connection", "sendto:error=EIO", BROKE),
    case("a reason of the system: a write that waits too long", "sendto:error=EAGAIN", LATE),
    case("a reason of the system: a wait that is not set", "setsockopt:error=ENOMEM:when=3+", MEMORY),
)
def test_connection_fails(refused, why):
    """A connection that fails when it is there."""
    with folders() as (log, there):
        port = free_port()
        before = strace(os.path.join(log, "log"), "-e", "inject=" + refused)
        words = ("receive", "-p", port, "--eager", "--verbose", there)
        with running(*words, before=before) as receive, connected(port, receive):
            ended = receive.ended()
    said = listening(port) + "connected\nthe line failed: %s\n" % why
    ended.wants(3, "receiver files 0 running\n", said + FAULT)


@sentence("a reason of the system: the last answer")
def test_last_answer():
    """The batch is stored and told. Its end block has no answer, and why is told."""
    with folders() as (log, there):
        log = os.path.join(log, "log")
        whole, _ = received(FILE, there, (), strace(log, "-e", "trace=sendto"))
        whole.wants(0, told_of(FILE))
        count = len(calls_of(log))
    with folders() as (log, there):
        last = "inject=sendto:error=EIO:when=%d" % count
        before = strace(os.path.join(log, "log"), "-e", last)
        ended, _ = received(FILE, there, ["--verbose"], before)
    assert ended.err.endswith(
        "the line failed: %s\n" % BROKE + FAULT
    ), "it said %r" % ended.err
    ended.wants(3, told_of(FILE), ended.err)


@sentence("a reason of the system: standard output, which is the line, is closed")
def test_closed_line():
    """A receiver on standard input and output that cannot ask."""
    words = ["sh", "-c", 'exec "$0" "$@" >&-', PROGRAM, "rb", "--verbose"]
    with folders() as (_, there), started(words, there) as child:
        out, err = ends_with(child, 3)
    told = "the line failed: it is closed, or not open for this\n"
    assert told in err and not out, "it told %r" % err
