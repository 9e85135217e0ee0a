"""Peers that stall before one frame or one answer, and take up where they stood: what they have to
answer meanwhile waits in the line."""

import time

from support.cases import case, cases
from support.claims import Claim, claim_of_receive, claim_of_send, wants_true
from support.frames import EOT, NAK, PLACES, START, frames_of, mixed, place, short
from support.peers import (
    Pause,
    PlainReceiver,
    PlainSender,
    frames_at,
    receive_from,
    receive_plainly,
    send_to,
)
from support.program import folders, stored
from support.waits import waiting


SECONDS = (1, 9, 11, 12, 21, 35)
FILES = [("first", b"x" * 3000), ("second", bytes(range(100)))]
SHAPES = (("", [], mixed), (", --short", ["--short"], short))
CONFIRMATIONS = ((", two EOTs", False), (", one EOT", True))
EACH = [
    (confirmation + shape, is_single, flags, cut)
    for shape, flags, cut in SHAPES
    for confirmation, is_single in CONFIRMATIONS
]

NOISE_FILES = [("a", b"x" * 700), ("b", b""), ("c", b"y" * 2304), ("d", b"")]

# A receiver that asks so often, in seconds, and gives up after so many times. `send` passes over
# ten reads that bring C alone; a busy machine may take longer.
ASKS_EVERY = 0.4
MOST_ASKS = 100

# How long `send` waits for a reply before it writes its frame again.
SEND_WAITS = 10


def eot_of(file, cut):
    """Which frame of the batch is the EOT of its first file, or of its second one."""
    return [at for at, frame in enumerate(frames_of(FILES, cut)) if frame[0] == EOT][file]


def of_send(is_single, flags, wants_finished=True, **how):
    """`send` to a plain receiver that stalls: what both claim at the end is so."""
    receiver = PlainReceiver(is_single)
    ended = send_to(lambda end: receive_plainly(end, receiver, **how), FILES, flags)
    claims = [claim_of_send(ended), Claim("the receiver", receiver.is_finished)]
    wants_true(FILES, receiver.kept, claims, wants_finished)


@cases(
    *(
        case(
            "send: %s answered %d s late%s" % (where, seconds, how),
            where,
            seconds,
            is_single,
            flags,
            cut,
        )
        for how, is_single, flags, cut in EACH
        for where in PLACES
        for seconds in SECONDS
    ),
    *(
        case(
            "send: %s answered 12 s late, and nobody at the EOT%s" % (where, how),
            where,
            12,
            is_single,
            flags,
            cut,
            leaves_at=eot_of(0, cut),
        )
        for how, is_single, flags, cut in EACH
        for where in PLACES[1:3]
    )
)
def test_answers_late(where, seconds, is_single, flags, cut, leaves_at=None):
    """A receiver that answers a frame so late, and then each copy that has come meanwhile: after
    some waits all at once, after others one by one."""
    pause = Pause(place(where, FILES, cut), seconds)
    of_send(
        is_single,
        flags,
        leaves_at is None,
        pause=pause,
        copies=seconds // SEND_WAITS,
        is_apart=seconds in (12, 35),
        leaves_at=leaves_at,
    )


@cases(
    *(
        case("send: a NAK behind the answer to the last block%s" % how, is_single, flags, cut)
        for how, is_single, flags, cut in EACH
    )
)
def test_asks_meanwhile(is_single, flags, cut):
    """A receiver whose answer to the last block of a file comes 4 s late. It has asked after 3 s,
    and leaves at the EOT of the next file."""
    last = eot_of(0, cut) - 1
    of_send(is_single, flags, False, pause=Pause(last, 4), stale=last, leaves_at=eot_of(1, cut))


@cases(
    *(
        case(
            "send: a NAK before the answers to a block and its copy%s" % how, is_single, flags, cut
        )
        for how, is_single, flags, cut in EACH
    )
)
def test_asks_before_answering(is_single, flags, cut):
    """A receiver that a frame does not reach for 3 seconds, so that it asks by NAK; then the frame
    and its copy come, and it answers both. It leaves at the EOT."""
    pause = Pause(place("the first block", FILES, cut), 3, behind=bytes((NAK,)))
    of_send(is_single, flags, False, pause=pause, copies=1, leaves_at=eot_of(0, cut))


@cases(
    *(
        case("receive: noise before frame %d, which comes 2.5 s late%s" % (at, how), at, flags)
        for how, flags in (("", []), (", --single", ["--single"]))
        for at in range(len(frames_of(NOISE_FILES)))
    )
)
def test_noise_meanwhile(at, flags):
    """A plain sender that takes 2.5 seconds over a frame, in which ten bytes of noise reach the
    receiver."""
    sender = PlainSender(NOISE_FILES, Pause(at, 2.5, before=b"\x55" * 10))
    with folders() as (_, there):
        ended = receive_from(sender.run, there, flags)
        claims = [
            claim_of_receive(ended, NOISE_FILES),
            Claim("the sender", sender.is_finished, sender.done),
        ]
        wants_true(NOISE_FILES, stored(there), claims, True)


@cases(
    *(
        case("send: a lost block 0, and a receiver that asks every 0.4 s%s" % shape, flags)
        for shape, flags, _ in SHAPES
    )
)
def test_asks_on(flags):
    """A receiver that a block 0 does not reach, and that asks for it more often than a sender's
    short wait ends, as boot loaders do: it is heard in the end."""
    receiver = PlainReceiver()

    def peer(end):
        end.sendall(bytes((START,)))
        next(frames_at(end))
        for _ in range(MOST_ASKS):
            end.sendall(bytes((START,)))
            until = time.monotonic() + ASKS_EVERY
            while not waiting(end) and time.monotonic() < until:
                time.sleep(0.02)
            if waiting(end):
                return receive_plainly(end, receiver)
        raise AssertionError("asked %d times, and no block 0 came again" % MOST_ASKS)

    ended = send_to(peer, FILES, flags)
    wants_true(
        FILES,
        receiver.kept,
        [claim_of_send(ended), Claim("the receiver", receiver.is_finished)],
        True,
    )


@cases(
    *(
        case("receive: %s %d s late%s%s" % (where, seconds, how, shape), where, seconds, flags, cut)
        for how, flags in (("", []), (", --single", ["--single"]))
        for shape, _, cut in (("", [], mixed), (", blocks of 128", [], short))
        for where in PLACES
        for seconds in SECONDS
    )
)
def test_sends_late(where, seconds, flags, cut):
    """A plain sender that writes a frame so late, and then answers each byte that asked for it
    meanwhile."""
    sender = PlainSender(FILES, Pause(place(where, FILES, cut), seconds), cut=cut)
    with folders() as (_, there):
        ended = receive_from(sender.run, there, flags)
        claims = [
            claim_of_receive(ended, FILES),
            Claim("the sender", sender.is_finished, sender.done),
        ]
        wants_true(FILES, stored(there), claims, seconds <= 21)
