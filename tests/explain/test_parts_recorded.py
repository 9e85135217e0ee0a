"""Records of a part of a session: of one end alone, or begun in the middle. And where the two ends
of a session part."""

import os
import tempfile

from support.cases import case, cases, sentence
from support.explained import PIECE, record_of, told

PARTED = "here the two ends parted"
DONE = "the sender wrote its whole batch: what the receiver answered is not in the file"
ONE_WAY = "nothing wrong is seen one way: record both ways to see what was answered"


def told_of(lines):
    """What is told of a record of these lines."""
    with tempfile.TemporaryDirectory() as folder:
        path = os.path.join(folder, "a.record")
        with open(path, "w", encoding="ascii") as it:
            it.write("".join("%s %s %s\n" % line for line in lines))
        return told(path)


def lines_of(name):
    """The lines of a recorded session."""
    return PIECE.findall(record_of(name)[2])


@cases(
    case("the sender's way alone was recorded: all of a batch", "whole", ">", DONE),
    case("the sender's way alone was recorded: of our own", "whole-own-sender", ">", DONE),
    case("the sender's way alone was recorded: it was killed", "sender-killed", ">", ONE_WAY),
    case("the receiver's way alone was recorded: all of a batch", "whole", "<", ONE_WAY),
    case("the receiver's way alone was recorded: U-Boot", "whole-u-boot", "<", ONE_WAY),
)
def test_one_way_of_a_record(name, way, wanted):
    """A sender that goes on has been answered, and a receiver that acknowledges has had a frame:
    the record lacks the other way, which is told, and no other trouble."""
    lines = told_of([line for line in lines_of(name) if line[1] == way])
    assert lines[-1] == wanted, "told %r" % lines[-1]
    assert not any(PARTED in line for line in lines), "it told where they parted"


@sentence("a record that begins in a file is not told as XMODEM")
def test_begins_in_a_file():
    """Blocks before the first one of a record were not recorded. How the session ended is told."""
    for name in ("receiver-cancels", "sender-cancels", "sender-killed", "whole"):
        wanted = told_of(lines_of(name))[-1]
        lines = lines_of(name)
        data = [at for at, line in enumerate(lines) if line[2][:6] in ("0102fd", "0103fc")]
        for at in data:
            front = told_of(lines[at:])
            assert "the first here: those before it were not recorded" in front[0], front[0]
            assert front[-1] == wanted, "%s from line %d on: %r" % (name, at, front[-1])


@sentence("who never met does not part")
def test_who_never_met():
    """Ends of which none answered a frame of a file of the other have not parted, nor have those
    whose session is whole, as one with U-Boot, which acknowledges an EOT twice."""
    for name in (
        "eot-alone",
        "xmodem-sender",
        "xmodem-sender-python",
        "ymodem-g-receiver-sb",
        "zmodem-receiver",
        "whole-u-boot",
        "whole-u-boot-own-sender",
    ):
        lines = told(record_of(name)[0])
        assert not any(PARTED in line for line in lines), "%s: %r" % (name, lines[-2])


@sentence("where an acknowledgement came too early, the two ends parted")
def test_where_they_parted():
    """The line stands before the last one, and has the moment of the acknowledgement."""
    for name in ("reply-ahead", "reply-ahead-1k", "reply-ahead-early", "reply-ahead-late"):
        lines = told(record_of(name)[0])
        moment = lines[-2].split(" ")[0]
        assert lines[-2] == "%s %s" % (moment, PARTED), "%s: %r" % (name, lines[-2])
        ahead = [line for line in lines if line.startswith(moment + " ")]
        assert any("nothing is out" in line or "not acknowledged" in line for line in ahead), ahead
