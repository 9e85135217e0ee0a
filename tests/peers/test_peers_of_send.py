"""Peers of `send` that misbehave: how it ends."""

import time

import pytest
from support.cases import case, cases
from support.frames import ACK, CAN, CANCEL, END, EOT, NAK, START, block, header, mixed, short
from support.peers import send_to
from support.talking import JUNK, expect, expect_no_more, floods, never_stops, reset, take, talks


# Behind a new block 0 each C within a second of the one before is passed over, and one within 1.75
# seconds says that the block was damaged.
STALE = 3


# Peers of `send`


def calls_and_resets(end):
    end.sendall(bytes((START,)))
    reset(end)


def closes_in_block_0(end):
    end.sendall(bytes((START,)))
    take(end, 133)
    end.close()


def always_naks(end):
    end.sendall(bytes((START,)))
    for _ in range(10):
        expect(end, header(b"a", b"3000"))
        end.sendall(bytes((NAK,)))
    expect(end, CANCEL)
    expect_no_more(end)


def junk_for_replies(end):
    # One at a time: what is left of a read is dropped.
    for _ in range(10):
        end.sendall(JUNK)
    expect(end, CANCEL)
    expect_no_more(end)


def quiet_receiver(end):
    expect(end, CANCEL)
    expect_no_more(end)


def cancels_behind_block_0(end):
    end.sendall(bytes((START,)))
    expect(end, header(b"a", b"3000"))
    end.sendall(CANCEL)
    expect_no_more(end)


def asks_and_takes(end):
    """Asks for block 0 while that is on its way, and says what `rb` of lrzsz says to both copies:
    its C is in one read with the ask and behind it, and then it asks by NAK."""
    end.sendall(bytes((START,)))
    expect(end, header(b"a", b"3000"))
    time.sleep(STALE)
    end.sendall(bytes((START, ACK, START)))
    expect(end, header(b"a", b"3000"))
    end.sendall(bytes((ACK,)))
    end.sendall(bytes((NAK,)))


def takes_at_once(lead):
    """Takes block 0 of the first file, and sends this before each reply."""

    def takes(end):
        end.sendall(lead + bytes((START,)))
        expect(end, header(b"a", b"3000"))
        end.sendall(lead + bytes((ACK, START)))

    return takes


def takes_all(cut, lead=b"", opens=None, last=bytes((ACK,))):
    """Takes both files, in the blocks that they are cut into, and sends this before each reply. The
    end block is written again where an ask stands before its ACK."""
    call = lead + bytes((ACK, START))

    def peer(end):
        (opens or takes_at_once(lead))(end)
        for number, body in enumerate(cut(b"x" * 3000), 1):
            expect(end, block(number, body))
            end.sendall(lead + bytes((ACK,)))
        for asked, answer in (
            (bytes((EOT,)), call),
            (header(b"b"), call),
            (bytes((EOT,)), lead + bytes((NAK,))),
            (bytes((EOT,)), call),
        ):
            expect(end, asked)
            end.sendall(answer)
        expect(end, END)
        end.sendall(last)
        if last[0] != ACK:
            expect(end, END)
        expect_no_more(end)

    return peer


CLOSED = ("fault: closed\n", "fault: device\n")


@cases(
    case(
        "send: the peer closes at once",
        lambda end: end.close(),
        3,
        "sender done 0 running\n",
        "fault: closed\n",
    ),
    case("send: the peer resets the connection", reset, 3, ("sender done 0 running\n", ""), CLOSED),
    case(
        "send: the peer calls and resets",
        calls_and_resets,
        3,
        ("sender done 0 running\n", ""),
        CLOSED,
    ),
    case(
        "send: the peer closes behind block 0",
        closes_in_block_0,
        3,
        "sender done 0 running\n",
        "fault: closed\n",
    ),
    case("send: the peer refuses block 0 for ever", always_naks, 1, "sender done 0 no-reply\n"),
    case("send: the peer sends junk ten times", junk_for_replies, 1, "sender done 0 no-reply\n"),
    case("send: the peer sends junk without end", never_stops, 1, "sender done 0 no-reply\n"),
    case(
        "send: the peer sends much junk and closes",
        # All of it has to be heard before `send` has waited ten times, on a busy machine, too.
        lambda end: floods(end, 1024),
        3,
        "sender done 0 running\n",
        ("fault: closed\n", "fault: device\n"),
    ),
    case("send: the peer cancels at once", talks((CANCEL, b"")), 1, "sender done 0 cancelled\n"),
    case(
        "send: the peer cancels behind block 0",
        cancels_behind_block_0,
        1,
        "sender done 0 cancelled\n",
    ),
    case(
        "send: the peer takes both files, each byte as it has to be",
        takes_all(mixed),
        0,
        "sender done 2 finished\n",
    ),
    case(
        "send: the peer takes both files in short blocks, for --short",
        takes_all(short),
        0,
        "sender done 2 finished\n",
        flags=["--short"],
    ),
    case(
        "send: the peer sends a lone CAN before each reply",
        takes_all(mixed, bytes((CAN,))),
        0,
        "sender done 2 finished\n",
    ),
    case(
        "send: the peer says no C for a block 0 that comes twice, as rb",
        takes_all(mixed, opens=asks_and_takes),
        0,
        "sender done 2 finished\n",
    ),
    case(
        "send: the peer asks for the end block as it comes, and leaves",
        takes_all(mixed, last=bytes((START, ACK))),
        0,
        "sender done 2 finished\n",
    ),
    case(
        "send: the peer stays quiet",
        quiet_receiver,
        1,
        "sender done 0 no-reply\n",
        least=95,
        marks=pytest.mark.slow,
    ),
)
def test_to_receiver(peer, status, out, err="", least=0, flags=()):
    """`send`, called to this peer, ends so."""
    ended = send_to(peer, [("a", b"x" * 3000), ("b", b"")], flags)
    ended.wants(status, out, err)
    assert ended.seconds >= least, "it ended after %.1f s already" % ended.seconds
