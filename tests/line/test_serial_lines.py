"""Transfers from the program to the program over a serial line that stands still for a while, or
that carries noise."""

from support.batches import BATCHES
from support.cases import case, cases
from support.end_to_end import over_serial_line
from support.frames import EOT, PLACES, frames_of, mixed, place, short
from support.serial_line import Crossing, Noisy, Standing

SECONDS = (1, 4, 9, 11, 12, 21, 35)
FILES = [("first", b"x" * 3000), ("second", bytes(range(100)))]
FLAGS = ([], ["--short", "--single"], ["--single"], ["--short"])

# So many bytes of noise, and speeds at which they pass in less than the time after which an end
# gives up.
NOISE = (
    (1024, 9600),
    (2048, 9600),
    (5000, 9600),
    (1024, 115_200),
    (5000, 115_200),
    (20_480, 115_200),
    (20_480, 19_200),
    (20_480, 921_600),
)

SIDES = ((False, "before"), (True, "behind"))


def cut_of(flags):
    return short if "--short" in flags else mixed


@cases(
    *(
        case(
            " ".join(["a line that stands still %d s before %s" % (seconds, what), *flags]),
            where,
            seconds,
            is_reply,
            flags,
        )
        for number, (where, seconds) in enumerate(
            (where, seconds) for where in PLACES for seconds in SECONDS
        )
        for is_reply, what in ((False, where), (True, "the reply to " + where))
        for flags in (FLAGS[number % 2], FLAGS[2 + number % 2])
    )
)
def test_stands(where, seconds, is_reply, flags):
    line = Standing(place(where, FILES, cut_of(flags)), seconds, is_reply)
    # Where a frame is held longer than the receiver waits, so is the sender's copy. Where that is
    # the end block, the receiver may be gone then.
    is_certain = seconds <= 12 and (is_reply or seconds < 3 or where != "the end block")
    over_serial_line(FILES, line, 115_200, flags, wants_finished=is_certain)
    assert line.has_stood, "the line did not stand still"


@cases(*(case(" ".join(["a reply and a copy that cross", *flags]), 3.5, flags) for flags in FLAGS))
def test_crosses(seconds, flags):
    cut_at = [at for at, frame in enumerate(frames_of(FILES, cut_of(flags))) if frame[0] == EOT][0]
    over_serial_line(FILES, Crossing(1, seconds, cut_at), 115_200, flags, wants_finished=False)


@cases(
    *(
        case(
            "%d bytes of noise %s, %s frame %d, %d baud, %s"
            % (length, way, side, number % 5, baud, which),
            files,
            length,
            baud,
            is_reply,
            is_behind,
            number % 5,
            FLAGS[number % 4],
        )
        for which, files in BATCHES
        for number, (length, baud) in enumerate(NOISE)
        for is_reply, way in ((False, "to the receiver"), (True, "to the sender"))
        for is_behind, side in [SIDES[(number + is_reply) % 2]]
    )
)
def test_noise(files, length, baud, is_reply, is_behind, at, flags):
    bursts = {at: length}
    line = Noisy(length + at, {} if is_reply else bursts, bursts if is_reply else {}, is_behind)
    over_serial_line(files, line, baud, flags)
    assert line.is_done(), "the line carried no noise"
