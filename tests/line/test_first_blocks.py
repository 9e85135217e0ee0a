"""A receiver that asks for the first block 0 once more two seconds later, when nothing is known of
the line. `rb` asks so where a byte of that block was lost. A receiver that was only slow answers
both copies."""

import time

from support.cases import case, cases
from support.frames import ACK, ACK_START, END, EOT, START, block, header, mixed
from support.peers import send_to
from support.talking import expect, expect_no_more
from support.terminal import is_ready

FILES = [("a", b"x" * 3000)]
ASKS_AFTER = 2.0
# Such an ask comes sooner than one of a receiver that asks every three seconds. A busy machine can
# be later with it: such a session shows nothing, and another one is made.
LATEST, TRIES = 2.2, 5
# A line that is let clear behind two copies is so for four seconds, and none of this is waited. A
# busy machine can be later with it, too.
SOON = 2.0
# So long the ACK of block 1 waits for a C at most, on a busy machine too.
MOMENT = 1.0


class Receiver:
    """Says C, and once more two seconds later, and acknowledges each frame from then on. Where it
    was only slow, its answer to the second copy of block 0 comes behind block 1."""

    def __init__(self, was_slow):
        self.was_slow, self.asked_again, self.led_on = was_slow, 0.0, 0.0

    def opens(self, end):
        opening = header(b"a", b"3000")
        end.sendall(bytes((START,)))
        began = time.monotonic()
        expect(end, opening)
        time.sleep(ASKS_AFTER)
        end.sendall(bytes((START,)))
        expect(end, opening)
        answered = time.monotonic()
        self.asked_again = answered - began
        end.sendall(ACK_START)
        first, *_ = mixed(FILES[0][1])
        expect(end, block(1, first))
        self.led_on = time.monotonic() - answered

    def __call__(self, end):
        self.opens(end)
        if self.was_slow:
            end.sendall(ACK_START)
            early = is_ready(end, MOMENT)
            assert not early, "block 1 was not acknowledged, and the program wrote on"
        end.sendall(bytes((ACK,)))
        for number, body in enumerate(mixed(FILES[0][1])[1:], 2):
            expect(end, block(number, body))
            end.sendall(bytes((ACK,)))
        expect(end, bytes((EOT,)))
        end.sendall(ACK_START)
        expect(end, END)
        end.sendall(bytes((ACK,)))
        expect_no_more(end)


@cases(case("one copy was answered", False), case("both copies were answered", True))
def test_asked_again(was_slow):
    """Block 1 follows at once. The ACK of a copy of block 0, which has a C with it, is not taken
    for that of block 1."""
    for _ in range(TRIES):
        peer = Receiver(was_slow)
        try:
            ended = send_to(peer, FILES)
        except AssertionError:
            if peer.asked_again <= LATEST:
                raise
            continue
        if peer.asked_again <= LATEST:
            ended.wants(0, "sender done 1 finished\n")
            if peer.led_on < SOON:
                return
    raise AssertionError(
        "the last of %d times it was asked again after %.1f s, and block 1 came %.1f s behind that"
        % (TRIES, peer.asked_again, peer.led_on)
    )
