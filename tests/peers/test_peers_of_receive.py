"""Peers of `receive` that misbehave: how it ends, and what it has stored."""

import socket
import time

import pytest
from support.cases import case, cases
from support.frames import ACK, ACK_START, CANCEL, END, EOT, NAK, START, block, header
from support.peers import receive_from
from support.program import folders, wants_stored
from support.talking import JUNK, expect, expect_no_more, floods, reset, talks


def from_sender(peer, status, out, err="", there=(), least=0, flags=()):
    """`receive`, called by this peer, ends so, and has stored this, in no less than so many
    seconds."""
    with folders() as (_, folder):
        ended = receive_from(peer, folder, flags)
        ended.wants(status, out, err)
        wants_stored(folder, there)
        assert ended.seconds >= least, "it ended after %.1f s already" % ended.seconds


# Peers of `receive`


def in_pieces(*turns, length=50):
    """The same, where what is sent comes in pieces, apart by more than a read takes."""

    def peer(end):
        end.setsockopt(socket.IPPROTO_TCP, socket.TCP_NODELAY, 1)
        for data, reply in turns:
            for at in range(0, len(data), length):
                end.sendall(data[at : at + length])
                time.sleep(0.05)
            expect(end, reply)
        expect_no_more(end)

    return peer


# A file without bytes whose EOT was refused: what may come is its block 0 once more, or that EOT.
REFUSED = ((header(b"a"), ACK_START), (bytes((EOT,)), bytes((NAK,))))
STORED = (*REFUSED, (bytes((EOT,)), ACK_START))


@cases(
    case(
        "receive: the peer goes on to another file behind a refused EOT",
        talks(*REFUSED, (header(b"b", b"3"), CANCEL)),
    ),
    case(
        "receive: the peer goes on to another file, piece by piece",
        in_pieces(*REFUSED, (header(b"b", b"3"), CANCEL)),
    ),
    case(
        "receive: the peer goes on to another file in a long block 0",
        talks(*REFUSED, (header(b"b" * 200, b"3"), CANCEL)),
    ),
    case(
        "receive: the peer goes on to another file behind block 0",
        talks((header(b"a", b"3"), ACK_START), (header(b"b", b"3"), CANCEL)),
    ),
    case("receive: the peer ends the batch behind a refused EOT", talks(*REFUSED, (END, CANCEL))),
    case(
        "receive: the peer goes on to a third file behind a refused EOT",
        talks(*STORED, (header(b"b"), ACK_START), REFUSED[1], (header(b"c"), CANCEL)),
        [("a", b"")],
    ),
)
def test_out_of_step(peer, files=()):
    """`receive` ends at once, and has stored these files and no others."""
    lines = "".join("file %s %d - -\n" % (name, len(data)) for name, data in files)
    from_sender(peer, 1, lines + "receiver files %d out-of-step\n" % len(files), there=files)


def closes_in_a_file(end):
    end.sendall(header(b"cut", b"3000"))
    expect(end, bytes((ACK, START)))
    end.sendall(block(1, bytes(1024)))
    expect(end, bytes((ACK,)))
    end.close()


def resets_in_a_file(end):
    end.sendall(header(b"cut", b"3000"))
    expect(end, bytes((ACK, START)))
    reset(end)


def quiet_sender(end):
    expect(end, bytes((START,)) * 9 + CANCEL)
    expect_no_more(end)


@cases(
    case("receive: the peer names a file outside DIR", header(b"../outside"), "name-unsafe"),
    case("receive: the peer names a file ..", header(b".."), "name-unsafe"),
    case(
        "receive: the peer names a file with bytes that are not UTF-8",
        header(b"\xff"),
        "name-unsafe",
    ),
    case("receive: the peer names a file with 256 bytes", header(b"n" * 256), "name-long"),
    case("receive: the peer tells no length", header(b"a", b""), "no-length"),
    case(
        "receive: the peer tells a length that is too large",
        header(b"a", b"9223372036854775808"),
        "length-large",
    ),
)
def test_bad_header(frame, fault):
    from_sender(talks((frame, CANCEL)), 1, "receiver files 0 bad-header %s\n" % fault)


def stamped(*answers):
    """One file with a stamp and with data past its length, and an EOT for each of these answers."""
    return talks(
        (header(b"stamped", b"3 14012345670 100644 0 1 3"), bytes((ACK, START))),
        (block(1, b"abc" + b"\x1a" * 125), bytes((ACK,))),
        (block(2, b"past the length" + bytes(113)), bytes((ACK,))),
        *[(bytes((EOT,)), answer) for answer in answers],
        (block(0, b"\x00not all 00" + bytes(117)), bytes((ACK,))),
    )


TOLD = "file stamped 3 14012345670 100644\nreceiver files 1 finished\n"


@cases(
    case(
        "receive: the peer closes at once",
        lambda end: end.close(),
        3,
        "receiver files 0 running\n",
        "fault: closed\n",
    ),
    case(
        "receive: the peer resets the connection",
        reset,
        3,
        "receiver files 0 running\n",
        "fault: closed\n",
    ),
    case(
        "receive: the peer closes in a file",
        closes_in_a_file,
        3,
        "receiver files 0 running\n",
        "fault: closed\n",
    ),
    case(
        "receive: the peer resets in a file",
        resets_in_a_file,
        3,
        "receiver files 0 running\n",
        ("fault: closed\n", "fault: device\n"),
    ),
    case(
        "receive: the peer sends junk ten times",
        talks(*[(JUNK, bytes((START,)))] * 9, (JUNK, CANCEL)),
        1,
        "receiver files 0 too-many-errors\n",
    ),
    case(
        "receive: the peer sends junk without end", floods, 1, "receiver files 0 too-many-errors\n"
    ),
    case("receive: the peer cancels", talks((CANCEL, b"")), 1, "receiver files 0 cancelled\n"),
    case(
        "receive: the peer sends block 2 first",
        talks((header(b"a", b"3000"), bytes((ACK, START))), (block(2, bytes(1024)), CANCEL)),
        1,
        "receiver files 0 out-of-step\n",
    ),
    case(
        "receive: the peer repeats block 0 behind a refused EOT",
        in_pieces(*REFUSED, REFUSED[0], (bytes((EOT,)), ACK_START), (END, bytes((ACK,)))),
        0,
        "file a 0 - -\nreceiver files 1 finished\n",
        there=[("a", b"")],
    ),
    case(
        "receive: the peer sends a data block first",
        talks((block(1, bytes(128)), CANCEL)),
        1,
        "receiver files 0 out-of-step\n",
    ),
    case(
        "receive: the peer sends EOT before the length is covered",
        talks(
            (header(b"a", b"1"), bytes((ACK, START))),
            *[(bytes((EOT,)), bytes((NAK,)))] * 9,
            (bytes((EOT,)), CANCEL),
        ),
        1,
        "receiver files 0 too-many-errors\n",
    ),
    case(
        (
            "receive: the peer sends a stamp, data past the length, and an end block that is not"
            " all 00"
        ),
        stamped(bytes((NAK,)), bytes((ACK, START))),
        0,
        TOLD,
        there=[("stamped", b"abc")],
    ),
    case(
        "receive: the peer sends the same to --single, which acknowledges the first EOT",
        stamped(bytes((ACK, START))),
        0,
        TOLD,
        there=[("stamped", b"abc")],
        flags=["--single"],
    ),
    case(
        "receive: the peer ends the batch at once",
        talks((END, bytes((ACK,)))),
        0,
        "receiver files 0 finished\n",
    ),
    case(
        "receive: the peer stays quiet",
        quiet_sender,
        1,
        "receiver files 0 too-many-errors\n",
        least=28,
        marks=pytest.mark.slow,
    ),
)
def test_from_sender(peer, status, out, err="", there=(), least=0, flags=()):
    from_sender(peer, status, out, err, there, least, flags)
