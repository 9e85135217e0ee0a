"""Reads of a connection that a signal interrupts. That is no failure of the line, and no wait is
longer for it."""

import contextlib
import os
import signal
import struct

import pytest
from support.cases import sentence
from support.frames import ACK, END, START
from support.program import LIMIT, connected, folders, free_port, running
from support.talking import expect, talks
from support.tracing import calls_of, strace
from support.waits import wait_to_read, wait_until, waiting


pytestmark = pytest.mark.steadily

# So often it is stopped at most, and so many seconds lie between: fewer than the three after which
# `receive` asks again.
STOPS, STOPS_EVERY = 30, 1.3
ASKS = 3

# So many reads are interrupted, each after so many milliseconds.
INTERRUPTED, AFTER = 3, 500


def state_of(child):
    """S where a process waits, T where it is stopped."""
    with open("/proc/%d/stat" % child.child.pid, encoding="ascii") as it:
        return it.read().rpartition(")")[2].split()[0]


def stops(child):
    """Stops a child that waits, and has it go on."""
    for by, state in ((signal.SIGSTOP, "T"), (signal.SIGCONT, "S")):
        wait_until(lambda: state_of(child) in "ST", "it waited", child)
        child.child.send_signal(by)
        wait_until(lambda state=state: state_of(child) == state, "it took the signal", child)


@contextlib.contextmanager
def eager_and_peer():
    """A `receive` that asks, and the connection of its peer, who ends the batch behind all else."""
    with folders() as (_, there):
        port = free_port()
        with running("receive", "--port", port, "--eager", there) as receive, connected(
            port, receive
        ) as end:
            end.settimeout(LIMIT)
            yield receive, end
            end.sendall(END)
            receive.ended().wants(0, "receiver files 0 finished\n")


@sentence("sockets: receive, stopped while it waits, goes on")
def test_is_stopped_and_goes_on():
    with eager_and_peer() as (receive, end):
        for _ in range(3):
            expect(end, bytes((START,)))
            stops(receive)


@sentence("sockets: receive, stopped again and again, asks")
def test_is_stopped_again_and_again():
    """No wait begins anew where it is stopped."""
    with eager_and_peer() as (receive, end):
        for _ in range(STOPS):
            wait_to_read(end, ASKS, STOPS_EVERY)
            if waiting(end) >= ASKS:
                break
            stops(receive)
        asked = waiting(end)
        assert asked >= ASKS, "stopped %d times, it asked %d times" % (STOPS, asked)
        expect(end, bytes((START,)) * asked)


def wait_set_by(call):
    """The milliseconds for which this call has a socket's reads wait."""
    given = call.arguments.split('"')[1].replace("\\x", "")
    seconds, micros = struct.unpack("=qq", bytes.fromhex(given))
    return 1000 * seconds + micros // 1000


@sentence("sockets: receive, interrupted, waits for what is left")
def test_waits_for_what_is_left():
    with folders() as (log, there):
        log, port = os.path.join(log, "log"), free_port()
        late = "inject=recvfrom:error=EINTR:delay_enter=%d:when=1..%d" % (1000 * AFTER, INTERRUPTED)
        before = strace(log, "-xx", "-e", "trace=recvfrom,setsockopt", "-e", late)
        with running("receive", "--port", port, "--eager", there, before=before) as receive:
            with connected(port, receive) as end:
                talks((b"", bytes((START,))), (END, bytes((ACK,))))(end)
            receive.ended().wants(0, "receiver files 0 finished\n")
        waits = [wait_set_by(it) for it in calls_of(log) if "SO_RCVTIMEO" in it.arguments]
        whole, *left = waits[: INTERRUPTED + 1]
        most = [whole - AFTER * (at + 1) for at in range(INTERRUPTED)]
        is_left = len(left) == INTERRUPTED and all(it <= to for it, to in zip(left, most))
        assert is_left, "its reads waited %r ms" % waits


@sentence("sockets: receive, each of whose reads is interrupted, asks")
def test_each_is_interrupted():
    """Such a line is quiet."""
    with folders() as (log, there):
        log, port = os.path.join(log, "log"), free_port()
        before = strace(log, "-e", "trace=recvfrom", "-e", "inject=recvfrom:error=EINTR")
        with running("receive", "--port", port, "--eager", there, before=before) as receive:
            with connected(port, receive) as end:
                end.settimeout(LIMIT)
                expect(end, bytes((START, START)))
