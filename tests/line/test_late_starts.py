"""Senders that start late, when the receiver has asked for them some times already, and receivers
that start late.

Each C that waits in the line is answered by one more copy of block 0. A receiver asks after 3
seconds, and again every 3 seconds, nine times; so these checks count how often it has asked, and no
seconds: 1, 2, 4, 6 and 9 times are 4, 7, 12, 20 and 29 seconds.
"""

from support.batches import ASKED, BATCHES, CHANCE, SINGLE
from support.cases import case, cases
from support.claims import Claim, claim_of_receive, wants_true
from support.end_to_end import over_serial_line
from support.frames import mixed, short
from support.peers import PlainSender, receive_from
from support.program import folders, stored
from support.serial_line import Apart, Counted
from support.waits import wait_for_asks

GAPS = (0.0, 0.1, 0.3, 0.7)

# Copies have to come within a second of one another; what is left of it is for the way.
LONGEST_GAP = 0.9
TRIES = 5

# At 300 baud a short block takes more than 4 seconds.
SMALL = [("a", b""), ("b", CHANCE.randbytes(200))]


@cases(
    *(
        case(
            "receive: %s, asked %d times, copies %d ms apart%s" % (which, asked, gap * 1000, how),
            files,
            asked,
            gap,
            flags,
            short if flags else mixed,
        )
        for which, files in BATCHES
        for asked in ASKED
        for gap in (GAPS if asked > 1 else GAPS[:1])
        for how, flags in SINGLE
    )
)
def test_plain_sender(files, asked, gap, flags, cut):
    """A plain sender that answers each C by block 0, with this gap between its copies."""

    def late(sender, end):
        wait_for_asks(end, asked)
        sender.run(end)

    # A busy machine can stretch a gap beyond the second within which copies have to come: such a
    # transfer shows nothing, and another one is made.
    for _ in range(TRIES):
        sender = PlainSender(files, gap=gap, cut=cut)
        with folders() as (_, there):
            ended = receive_from(lambda end: late(sender, end), there, flags)
            if sender.longest_gap < LONGEST_GAP:
                claims = [
                    claim_of_receive(ended, files),
                    Claim("the sender", sender.is_finished, sender.done),
                ]
                return wants_true(files, stored(there), claims, wants_finished=True)
    raise AssertionError(
        "this machine stretched a gap of %d ms beyond %d ms, each of %d times"
        % (gap * 1000, LONGEST_GAP * 1000, TRIES)
    )


BATCHES_AT = (
    (300, Counted, [("small files", SMALL)]),
    (9600, Counted, BATCHES),
    (115_200, Apart, BATCHES),
    (921_600, Counted, BATCHES),
)


def flags_at(baud):
    return (
        (["--short"], ["--short", "--single"]) if baud == 300 else ([], ["--short"], ["--single"])
    )


@cases(
    *(
        case(
            " ".join(
                [
                    "send starts when it was asked %d times, %d baud, %s" % (asked, baud, which),
                    *flags,
                ]
            ),
            files,
            line,
            baud,
            asked,
            flags,
        )
        for baud, line, batches in BATCHES_AT
        for number, asked in enumerate(ASKED)
        for which, files in [batches[number % len(batches)]]
        for flags in flags_at(baud)
    )
)
def test_program(files, line, baud, asked, flags):
    over_serial_line(files, line(), baud, flags, asked)
