"""A file without bytes behind an EOT whose answer came late. Replies carry no number. The EOT of
such a file is acknowledged also by a receiver that never saw its block 0. So the first answer
behind its block 0 may be that of a copy of the EOT before, and nothing else would show it."""

import time

from support.cases import case, cases
from support.frames import ACK, ACK_START, END, EOT, NAK, START, block, header, mixed
from support.peers import send_to
from support.talking import expect, expect_no_more
from support.terminal import is_ready

FILES = [("a", b"x" * 100), ("b", b""), ("c", b"y" * 100)]
# A receiver asks unasked, so that nobody knows whether it has the EOT, after more than 2.75 s.
ASKS_AFTER = 3.2
# So late the answer to the copy of the EOT comes behind block 0, and so long nothing follows it. C
# alone is passed over where it comes within a second of another one.
LATE, MOMENT = 0.5, 1.5


def says(end, *reply):
    end.sendall(bytes(reply))


def takes_file(end, name, data):
    """Takes block 0, all blocks and one EOT, and acknowledges all but that."""
    expect(end, header(name, b"%d" % len(data)))
    end.sendall(ACK_START)
    for number, body in enumerate(mixed(data), 1):
        expect(end, block(number, body))
        says(end, ACK)
    expect(end, bytes((EOT,)))


def stores_late(end):
    """Refuses the EOT of the first file when it is asked unasked, and stores it behind the copy."""
    says(end, START)
    takes_file(end, b"a", FILES[0][1])
    time.sleep(ASKS_AFTER)
    says(end, NAK)
    expect(end, bytes((EOT,)))
    end.sendall(ACK_START)


def answers_twice(end):
    """An answer that is not heard; then it asks, as one does that has block 0 or lacks it, and
    takes the file."""
    end.sendall(ACK_START)
    assert not is_ready(end, MOMENT), "an answer was taken that may be that of the EOT before"
    says(end, START)
    takes_file(end, b"b", b"")
    says(end, NAK)
    expect(end, bytes((EOT,)))
    end.sendall(ACK_START)


def ends_batch(end):
    takes_file(end, b"c", FILES[2][1])
    end.sendall(ACK_START)
    expect(end, END)
    says(end, ACK)
    expect_no_more(end)


@cases(
    case("the receiver lost block 0, and the answer to a copy of the EOT came", LATE),
    case("the receiver has block 0, and no other answer comes", 0.0),
)
def test_empty_file_behind_a_late_answer(late):
    """Its EOT is not written before its block 0 was answered by an answer of its own."""

    def peer(end):
        stores_late(end)
        expect(end, header(b"b"))
        time.sleep(late)
        answers_twice(end)
        ends_batch(end)

    send_to(peer, FILES).wants(0, "sender done 3 finished\n")
