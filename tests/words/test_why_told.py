"""What `send` and `receive` tell of why they ended follows from what was seen of the other end, and
names the file that it is of."""

import contextlib
import os
import re
import time

import pytest

from support.cases import case, cases, sentence
from support.frames import ACK, ACK_START, CANCEL, END, EOT, NAK, START, block, header
from support.peers import frames_at, receive_from, send_to
from support.program import (
    LIMIT,
    connected,
    file_lines,
    folders,
    free_port,
    running,
    write_files,
)
from support.telling import FAULT, FILE, coming
from support.talking import talks
from support.tracing import at_paths, calls_of, strace


LOUD = ("--verbose",)
XMODEM = "the receiver asks by NAK, as XMODEM does: start it as a receiver of YMODEM"
PASSES = "the receiver took block 0 and asked by NAK, as XMODEM does: run `rb` there, not `rx`"
STREAMS = "the receiver asks by G, as YMODEM-g does: start it as a receiver of YMODEM"
REFUSES = "nothing came but NAK, ten times: does the receiver get every byte that is sent?"
SPEED = "nothing whole came, ten times in a row: do both ends have the same speed?"
NO_ANSWER = "what comes is no answer of a YMODEM receiver: is one running, at the same speed?"
BETTER_LINE = "nothing new came whole, ten times in a row: use a better line, or a lower speed"
SAME = "nothing came but the same again, ten times: does the sender get what is written to it?"
PAST = "nothing came but data past the file's length, ten times: does the file grow?"
NO_SENDER = "nothing came but what receivers send: is a sender at the other end?"
NO_LENGTH = "the sender gave a file no length: use a sender of YMODEM that gives one"
NO_ROOM = "the name leaves block 0 no room for the length: send the file under a shorter one"
NAMELESS = "the sender names no file, as XMODEM does: start it as a sender of YMODEM"
AGAIN = "a block came out of turn: the two ends are out of step, send again"

# So often a peer says it again, in seconds: an end takes each time as one delivery.
AGAIN_S = 1.5


def is_over(end):
    """Whether the other end has cancelled or left, before this one says anything again."""
    end.settimeout(AGAIN_S)
    try:
        while got := end.recv(4096):
            if got.endswith(CANCEL):
                return True
    except TimeoutError:
        return False
    return True


def says_on(end, data, times=20):
    """Says this so often, until it is over."""
    for _ in range(times):
        end.sendall(data)
        if is_over(end):
            return


def asks_by(byte):
    return lambda end: says_on(end, bytes((byte,)))


def refuses(end):
    """A receiver that asks, and then refuses each frame."""
    end.sendall(bytes((START,)))
    next(frames_at(end))
    says_on(end, bytes((NAK,)))


def passes_over(end):
    """A receiver of XMODEM that asks by C, as `rx -c`: block 0 is a copy to it, of no block."""
    end.sendall(bytes((START,)))
    next(frames_at(end))
    end.sendall(bytes((ACK,)))
    says_on(end, bytes((NAK,)))


def takes_a_copy(end):
    """A receiver whose answer to block 0 was lost. It takes the copy by ACK alone, and asks by NAK
    from then on, as `rb` does."""
    end.sendall(bytes((START,)))
    frames = frames_at(end)
    next(frames)
    end.sendall(bytes((NAK,)))
    next(frames)
    end.sendall(bytes((ACK,)))
    says_on(end, bytes((NAK,)))


def falls_silent(end):
    """The same, which says nothing more behind some refusals."""
    end.sendall(bytes((START,)))
    next(frames_at(end))
    says_on(end, bytes((NAK,)), 7)
    end.settimeout(LIMIT)
    while end.recv(4096):
        pass


def told_last(ended):
    return ended.err.splitlines()[-1]


@cases(
    case("tells that a receiver asks as one of XMODEM", asks_by(NAK), XMODEM),
    case("tells that a receiver asks as one of YMODEM-g", asks_by(ord("G")), STREAMS),
    case("tells that a receiver refuses what is sent", refuses, REFUSES),
    case("tells that a receiver passes block 0 over", passes_over, PASSES),
    case("tells a copy of block 0 that was taken as no XMODEM", takes_a_copy, BETTER_LINE),
    case("tells that what comes to a sender is noise", asks_by(0xFE), NO_ANSWER),
)
def test_no_reply(peer, told):
    """What a sender that nobody answers tells of what came."""
    ended = send_to(peer, FILE, LOUD)
    ended.wants(1, "sender done 0 no-reply\n", ended.err)
    assert told_last(ended) == told, "what it told"


def wants_told(peer, told):
    """What a sender beside this peer tells last, as a pattern."""
    ended = send_to(peer, FILE, LOUD)
    ended.wants(1, "sender done 0 no-reply\n", ended.err)
    assert re.fullmatch(told, told_last(ended)), "it told %r" % told_last(ended)


@sentence("tells that a receiver fell silent behind what it refused")
def test_receiver_ceases():
    """It was there, so nobody is asked whether it runs at the same speed."""
    ceased = r"no answer came any more for \d\d s: has the receiver stopped, or was the line cut\?"
    wants_told(falls_silent, ceased)


def floods(end):
    """What sends bytes without end that are none of a reply."""
    with contextlib.suppress(OSError):
        while True:
            end.sendall(bytes((0xA5,)) * 16)
            time.sleep(0.02)


@pytest.mark.long
@sentence("tells that no answer came, where noise comes without end")
def test_noise_without_end():
    """Its port hears none of it, so it does not tell that nothing came."""
    wants_told(floods, r"no answer came for \d+ s: is the receiver running, at the same speed\?")


# A block 1 that the line damaged.
DAMAGED = block(1, bytes(128)).replace(bytes(128), bytes(7) + b"\x01" + bytes(120))


def sends_damaged(end):
    """A sender whose blocks come damaged behind block 0."""
    end.sendall(header(b"a", b"128"))
    says_on(end, DAMAGED)


def sends_first(number):
    """A sender whose first block has this number."""

    def peer(end):
        end.recv(1)
        says_on(end, block(number, bytes(128)))

    return peer


def names(name):
    """A sender whose block 0 has this name, and no length behind it."""

    def peer(end):
        end.recv(1)
        says_on(end, block(0, name.ljust(128, b"\0")))

    return peer


def stuck(*turns, times=9):
    """A sender that gets these answers to what it sends, and the last of them so many times more
    before it is cancelled: whatever it is answered, it sends that again."""
    last = turns[-1]
    return talks(*turns, *([last] * times), (last[0], CANCEL))


LONG = (header(b"a", b"300"), ACK_START)
FIRST = (block(1, bytes(128)), bytes((ACK,)))


def sends_now_and_then_whole(end):
    """The same, of whose blocks every second one comes whole, and is one that came before."""
    again = ((DAMAGED, bytes((NAK,))), FIRST)
    talks(LONG, FIRST, *(again * 4), again[0], (FIRST[0], CANCEL))(end)


def sends_past(count):
    """A sender of a file of three bytes, and of so many blocks more before it is cancelled."""
    past = [(block(number, bytes(128)), bytes((ACK,))) for number in range(2, 1 + count)]
    begun = ((header(b"a", b"3"), ACK_START), FIRST)
    return talks(*begun, *past, (block(1 + count, bytes(128)), CANCEL))


@cases(
    case("tells that a block comes again and again", stuck(LONG, FIRST), "too-many-errors", SAME),
    case("tells that a block 0 comes again and again", stuck(LONG), "too-many-errors", SAME),
    case("tells that data comes past a length", sends_past(10), "too-many-errors", PAST),
    case(
        "tells that copies come between damaged blocks",
        sends_now_and_then_whole,
        "too-many-errors",
        BETTER_LINE,
    ),
    case("tells that the line damages blocks", sends_damaged, "too-many-errors", BETTER_LINE),
    case("tells that a receiver is at both ends", asks_by(START), "too-many-errors", NO_SENDER),
    case("tells that a sender sends as one of XMODEM", sends_first(1), "out-of-step", NAMELESS),
    case("tells that a sender is in the middle", sends_first(7), "out-of-step", AGAIN),
    case("tells that a name has no length", names(b"a"), "bad-header no-length", NO_LENGTH),
    case(
        "tells that a name leaves room for three more bytes",
        names(b"n" * 124),
        "bad-header no-length",
        NO_LENGTH,
    ),
    case(
        "tells that a name leaves no room for a length",
        names(b"n" * 125),
        "bad-header no-length",
        NO_ROOM,
    ),
    case(
        "tells that a name fills block 0",
        names(b"n" * 128),
        "bad-header no-length",
        NO_ROOM,
    ),
)
def test_no_block(peer, state, told):
    """What a receiver that gets no block tells of what came."""
    with folders() as (_, there):
        ended = receive_from(peer, there, LOUD)
    ended.wants(1, "receiver files 0 %s\n" % state, ended.err)
    assert told_last(ended) == told, "what it told"


@contextlib.contextmanager
def receiving(log, there, injected):
    """`receive` that tells what it does, whose syncs of the part of `a` are changed so, and the
    end of a connection to it."""
    part, port = os.path.join(there, "a.part"), free_port()
    words = ("receive", "-p", port, "--eager", *LOUD, there)
    before = strace(log, *at_paths([part]), "-e", "inject=fsync,fdatasync:" + injected)
    with running(*words, before=before) as receive, connected(port, receive) as end:
        end.settimeout(LIMIT)
        yield receive, end


def sends_nothing_in(end):
    """Sends the header of an empty file, and what ends it."""
    reads(end, bytes((START,)))
    for frame, reply in ((header(b"a"), ACK_START), (bytes((EOT,)), bytes((NAK,)))):
        end.sendall(frame)
        reads(end, reply)
    end.sendall(bytes((EOT,)))


def reads(end, wanted):
    """Reads a reply, which is this one."""
    got = b""
    while len(got) < len(wanted):
        piece = end.recv(1)
        assert piece, "it left behind %r" % got
        got += piece
    assert got == wanted, "the reply"


@sentence("tells that the file system cannot force a file onto the disk")
def test_no_sync():
    """What the system refuses at a sync is no matter of what kind of file it is."""
    with folders() as (log, there):
        log = os.path.join(log, "log")
        with receiving(log, there, "error=EINVAL") as (receive, end):
            sends_nothing_in(end)
            reads(end, CANCEL)
            ended = receive.ended()
        assert any(it.is_injected for it in calls_of(log)), "no sync was refused"
    told = "cannot store 'a': the file system or the device does not support it\n"
    assert ended.err.endswith(coming("a", 0) + told + FAULT), "it told %r" % ended.err
    assert ended.out == "receiver files 0 sink-failed\n", "what it printed"


@sentence("does not count as a wait what its own disk takes")
def test_waits_for_no_disk():
    """A sync that takes more than ten seconds, after which it would be told whom it waits for."""
    with folders() as (log, there):
        with receiving(os.path.join(log, "log"), there, "delay_enter=10500000") as (receive, end):
            began = time.monotonic()
            sends_nothing_in(end)
            reads(end, ACK_START)
            took = time.monotonic() - began
            end.sendall(END)
            reads(end, bytes((ACK,)))
            ended = receive.ended()
    assert took > 10, "no sync was slow"
    ended.wants(0, file_lines([("a", b"")]) + "receiver files 1 finished\n", ended.err)
    assert "waiting for" not in ended.err, "it told %r" % ended.err
