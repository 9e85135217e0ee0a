"""What `ymodem judge` says where its own line fails. That is no fault of the peer: nothing is found
of it."""

import contextlib
import os
import socket

from support.cable import plug, ticking
from support.cases import case, cases, sentence
from support.on_line import ends_with, says, started
from support.program import PROGRAM, folders, free_port, wants_same
from support.telling import FAULT
from support.tracing import at_paths, strace

START = "start the peer: plain\n"
HUNG_UP = "the line hung up\n"
BROKE = "the line failed: the device failed, or was unplugged\n"
NO_BUFFER = "the line failed: out of memory\n"
NO_WAY = "the line failed: the network does not lead there\n"
NO_DEVICE = "the line failed: no such device\n"
KINDS = ("receiver", "sender")


@contextlib.contextmanager
def refused(kind, refusal):
    """`judge` of such a peer at a port, where the system refuses this call of it."""
    port = str(free_port())
    with folders() as (here, log):
        before = strace(os.path.join(log, "log"), "-e", "inject=" + refusal)
        words = [PROGRAM, "judge", kind, "--port", port, "--only", "plain"]
        with started([*before, *words], here) as child:
            yield child, int(port)


def met(kind, child, port):
    """The connection to `judge`, which hears C of a receiver. What it has told until then is
    read."""
    if kind == "sender":
        assert child.stderr.readline() == START.encode()
        return socket.create_connection(("127.0.0.1", port))
    with socket.create_server(("127.0.0.1", port)) as listener:
        assert child.stderr.readline() == START.encode()
        end = listener.accept()[0]
        end.sendall(b"C")
        return end


def told_of(kind, refusal):
    """The status, and what is printed and told of a peer that says no more."""
    with refused(kind, refusal) as (child, port), met(kind, child, port) as end:
        with contextlib.suppress(ConnectionResetError):
            while end.recv(4096):
                pass
        return child.wait(), child.stdout.read().decode(), child.stderr.read().decode()


@cases(
    *(
        case("judge: %s on the way to a %s" % (what, kind), kind, refusal, why)
        for kind in KINDS
        for what, refusal, why in (
            ("a write fails", "sendto:error=EIO:when=1", BROKE),
            ("a write finds no room", "sendto:error=ENOBUFS:when=1", NO_BUFFER),
            ("a write finds no network", "sendto:error=ENETUNREACH:when=1", NO_WAY),
            ("a read fails", "recvfrom:error=EIO:when=1", BROKE),
        )
    )
)
def test_is_not_judged(kind, refusal, why):
    """Why it failed is told, and nothing else is printed."""
    wants_same({"told": told_of(kind, refusal)}, {"told": (3, "", why + FAULT)})


@cases(
    *(
        case("judge: a %s that %s" % (kind, what), kind, "sendto:error=%s:when=1" % error)
        for kind in KINDS
        for what, error in (
            ("has closed its end", "EPIPE"),
            ("broke the connection off", "ECONNRESET"),
            ("takes no byte", "EAGAIN"),
        )
    )
)
def test_is_judged(kind, refusal):
    """What the peer has done is found of it, also where it comes out by a write that fails."""
    status, out, err = told_of(kind, refusal)
    wants_same({"status": (status, err)}, {"status": (1, "")})
    assert "\navoid plain: it does not " in out, repr(out)


@cases(
    case(
        "judge: no receiver can be called",
        "receiver",
        "connect:error=EADDRNOTAVAIL",
        "no port of this machine is free for it",
    ),
    case(
        "judge: no sender can be taken",
        "sender",
        "accept,accept4:error=EMFILE",
        "too many files are open",
    ),
)
def test_has_no_connection(kind, refusal, why):
    """Nobody knows whether a peer is there."""
    with refused(kind, refusal) as (child, port):
        told = "no connection at 127.0.0.1:%d: %s\n" % (port, why)
        says(child, 3, "", START + told + FAULT)


@cases(*(case("judge: a write to the line of a %s fails" % kind, kind) for kind in KINDS))
def test_terminal_fails(kind):
    """So it is with a serial line."""
    with folders() as (here, log), plug() as it:
        ticking(it.outer)
        refusal = ("-e", "inject=write:error=ENXIO")
        before = strace(os.path.join(log, "log"), *at_paths([it.path]), *refusal)
        words = [PROGRAM, "judge", kind, "--line", it.path]
        with started([*before, *words], here) as child:
            os.write(it.inner, b"C")
            says(child, 3, "", START + NO_DEVICE + FAULT)


@cases(
    case("judge: the line of a receiver hangs up", "receiver"),
    case("judge: the line of a sender hangs up", "sender"),
)
def test_hangs_up(kind):
    """A peer may have closed its end: it is judged by the case in which the line hung up. In another
    one it could not be there: none begins."""
    with folders() as (here, _), plug() as it:
        ticking(it.outer)
        with started([PROGRAM, "judge", kind, "--line", it.path], here) as child:
            assert child.stderr.readline() == START.encode()
            os.write(it.inner, b"C")
            os.read(it.inner, 1)
            it.pull()
            out, err = ends_with(child, 3)
    wants_same({"told": err}, {"told": HUNG_UP + FAULT})
    assert out.startswith("plain: ") and out.count("\n") == 1, repr(out)


@sentence("judge: the line hangs up in the only case")
def test_hangs_up_last():
    """The report is whole."""
    with folders() as (here, _), plug() as it:
        ticking(it.outer)
        words = [PROGRAM, "judge", "sender", "--line", it.path, "--only", "plain"]
        with started(words, here) as child:
            assert child.stderr.readline() == START.encode()
            os.write(it.inner, b"C")
            os.read(it.inner, 1)
            it.pull()
            out, err = ends_with(child, 1)
    wants_same({"told": err}, {"told": ""})
    assert "\navoid plain: it does not " in out, repr(out)
