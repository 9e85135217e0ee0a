"""What `ymodem explain` tells of short records that are written by hand.

What is told follows from the protocol: a receiver asks by C, and one of YMODEM-g by G; an EOT is
refused once, and acknowledged; nothing that comes behind an acknowledged end changes what came; a
receiver drops what comes past the length that block 0 states.
"""

import os
import tempfile

from support.cases import case, cases
from support.explained import told
from support.frames import ACK, ACK_START, CANCEL, END, EOT, NAK, START, block

NAME = block(0, b"a.txt\x00200".ljust(128, b"\0"))
DATA = [block(number, b"x" * 128) for number in range(4)]
STRUCK = DATA[1][:9] + b"y" + DATA[1][10:]

# Pieces of a record: its way, and its bytes.
ASKS, TAKES, REFUSES = (("<", bytes((it,))) for it in (START, ACK, NAK))
TAKES_AND_ASKS, GIVES_UP = ("<", ACK_START), ("<", CANCEL)
ENDS_FILE, ENDS_BATCH, LEAVES = (">", bytes((EOT,))), (">", END), (">", CANCEL)
DAMAGED = (">", STRUCK)
G = ("<", b"G")

WHOLE = "the session is whole: nothing went wrong"
MENDED = "the session is whole: what came damaged was sent again"
UNHARMED = "the session is whole: what came damaged behind its end changed nothing"
REPEATED = "the session is whole: what was refused or unanswered was sent again"
UNSENT = "the sender cancelled before it sent a frame: see what it says"
UNANSWERED = "the receiver asked and no frame came: start the sender"
CANCELLED = "the sender cancelled: see what it says"
EOT_ALONE = "EOT came and no block: start both ends again, and record from before they start"
XMODEM = "the receiver asks by NAK, as XMODEM does: start it as a receiver of YMODEM"
BY_G = "the receiver asks by G, as YMODEM-g does: start it as a receiver of YMODEM"
UNASKED = "no receiver asked for a file: start one, and see that its line is connected"
CUT = "a file ended before its stated length: see whether it changed while it was sent"
STOPPED = (
    "the session stopped before its end: see whether the line was cut or an end was closed"
)
PAST = (
    "what came past a file's stated length is dropped: send one that does not grow, and no pipe"
)


def record(*pieces):
    """The record of these pieces, each with its way, two seconds apart."""
    lines = enumerate(pieces)
    return "".join("%d.0 %s %s\n" % (2 * at, way, data.hex()) for at, (way, data) in lines)


def lines_of(text, *words):
    with tempfile.TemporaryDirectory() as folder:
        path = os.path.join(folder, "it.record")
        with open(path, "w", encoding="ascii") as it:
            it.write(text)
        return told(*words, path)


def batch(name, count, begins=(ASKS,)):
    """A batch of one file with this block 0 and so many data blocks, each acknowledged."""
    data = [it for one in DATA[1 : count + 1] for it in ((">", one), TAKES)]
    ends = (ENDS_FILE, REFUSES, ENDS_FILE, TAKES_AND_ASKS, ENDS_BATCH, TAKES)
    return [*begins, (">", name), TAKES_AND_ASKS, *data, *ends]


FILE = batch(NAME, 2)
BEGUN, GOES_ON = FILE[:3], FILE[3:]


@cases(
    case("a sender that cancels before it sends", UNSENT, record(ASKS, LEAVES)),
    case("a sender that cancels, and who asks on", UNSENT, record(ASKS, LEAVES, ASKS)),
    case("a receiver that gives up first", UNANSWERED, record(ASKS, GIVES_UP, LEAVES)),
    case("a sender that cancels behind block 0", CANCELLED, record(*BEGUN, LEAVES)),
    case("nobody asked, and a cancel came", UNASKED, record(LEAVES)),
    # the record began late
    case(
        "an EOT that is refused and taken",
        EOT_ALONE,
        record(ENDS_FILE, REFUSES, ENDS_FILE, TAKES),
    ),
    case("an EOT that is taken at once", EOT_ALONE, record(ENDS_FILE, TAKES)),
    case("an EOT that is refused again", EOT_ALONE, record(*(ENDS_FILE, REFUSES) * 3)),
    case("an EOT that nobody answers", UNASKED, record(ENDS_FILE, ENDS_FILE)),
    case("a NAK before an EOT", XMODEM, record(REFUSES, ENDS_FILE, REFUSES)),
    # behind the end
    case("a damaged frame behind the end", UNHARMED, record(*FILE, DAMAGED)),
    case("a damaged frame before the last ACK", UNHARMED, record(*FILE[:-1], DAMAGED, TAKES)),
    case("a part of a frame behind the end", UNHARMED, record(*FILE, (">", b"\x01\x02"))),
    case(
        "a damaged frame behind the end, and the end once more",
        MENDED,
        record(*FILE, DAMAGED, ENDS_BATCH, TAKES),
    ),
    case(
        "a damaged frame in a second batch",
        MENDED,
        record(*FILE, ASKS, DAMAGED, REFUSES, *batch(NAME, 2, ())),
    ),
    case(
        "damage that was mended, and more behind the end",
        MENDED,
        record(*BEGUN, DAMAGED, REFUSES, *GOES_ON, DAMAGED),
    ),
    case(
        "a block that was refused, and damage behind the end",
        REPEATED,
        record(*BEGUN, (">", DATA[1]), REFUSES, *GOES_ON, DAMAGED),
    ),
)
def test_is_told(wanted, text):
    lines = lines_of(text)
    assert lines[-1] == wanted, "told %r" % lines


def named(length):
    return block(0, (b"a.txt\0" + length).ljust(128, b"\0"))


NAME_ALONE = block(0, b"a.txt".ljust(128, b"\0"))


@cases(
    case("a block past the length", PAST, record(*batch(NAME, 3))),
    case("a block of a file of no bytes", PAST, record(*batch(named(b"0"), 1))),
    case("a block past a length that ends with one", PAST, record(*batch(named(b"256"), 3))),
    case("a file that ends with its last block", WHOLE, record(*batch(named(b"256"), 2))),
    case("a file that ends in its last block", WHOLE, record(*FILE)),
    case("a file of no bytes", WHOLE, record(*batch(named(b"0"), 0))),
    case("a file of no stated length", WHOLE, record(*batch(NAME_ALONE, 3))),
    case("a file that is cut", CUT, record(*batch(named(b"257"), 2))),
    case(
        "the last block once more",
        REPEATED,
        record(*FILE[:6], REFUSES, (">", DATA[2]), *FILE[6:]),
    ),
)
def test_length_is_told(wanted, text):
    """What comes past the length that block 0 stated is dropped. Padding is none of it."""
    lines = lines_of(text)
    assert lines[-1] == wanted, "told %r" % lines


def asks(text):
    """The record of a receiver that writes this, byte by byte, at one moment."""
    return "".join("1.0 < %02x\n" % it for it in text)


ASKED = "< C: asks for a file"


@cases(
    case("G, and C behind it", 1, UNANSWERED, record(G, ASKS)),
    case("G, and C behind it at once", 1, UNANSWERED, asks(b"GC")),
    case("G, and C three times", 3, UNANSWERED, record(G, *(ASKS,) * 3)),
    case("G three times, and C", 1, UNANSWERED, record(*(G,) * 3, ASKS)),
    case("a text, G, and C", 1, UNANSWERED, record(("<", b"go\r\n"), G, ASKS)),
    case("G and C in one piece, and block 0", 1, STOPPED, record(("<", b"GC"), *BEGUN[1:])),
    case("G, C, and block 0", 1, WHOLE, record(G, *FILE)),
    case("a text that begins with GC", 0, UNASKED, asks(b"GCC 12.2\r\n")),
    case("the same in one piece", 0, UNASKED, record(("<", b"\r\nGCC 12.2\r\n"))),
    case("a text that begins with GC and a letter", 0, UNASKED, asks(b"GCR ready\r\n")),
    case("G in a text, and C", 0, UNASKED, asks(b"LOG C\r\n")),
    case("G alone", 0, BY_G, record(G, G)),
)
def test_asking_is_told(count, wanted, text):
    """A C behind G asks, where no text goes on there."""
    lines = lines_of(text)
    asked = [it for it in lines if it.endswith(ASKED)]
    assert len(asked) == count, "told %r" % lines
    assert lines[-1] == wanted, "told %r" % lines


@cases(
    case("G and C, in a file of one way", b"GC", 1),
    case("G, C and ACK, in a file of one way", b"GC\x06C", 1),
    case("a text that begins with GC, in a file of one way", b"GCC 12.2\r\n", 0),
)
def test_asking_one_way_is_told(data, count):
    with tempfile.TemporaryDirectory() as folder:
        path = os.path.join(folder, "back")
        with open(path, "wb") as it:
            it.write(data)
        lines = told("--back", path)
    asked = [it for it in lines if it.startswith("< C: ")]
    assert len(asked) >= count and bool(asked) == bool(count), "told %r" % lines
