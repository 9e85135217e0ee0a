"""What `ymodem explain` tells of a block 0 that states no length, or not all of one.

A name alone is no fault: YMODEM leaves the length away where a sender knows none, and old senders
do. It is one where the name left no room, as `sb` cuts its block 0 at 128 bytes.
"""

import os
import tempfile

from support.cases import case, cases
from support.explained import told
from support.frames import ACK, ACK_START, END, EOT, NAK, START, block

WHOLE = "the session is whole: nothing went wrong"
NO_ROOM = "block 0 had no room for the whole length: send the file under a shorter name"


def session(body):
    """The record of a whole session, whose block 0 has this body."""
    eot = bytes((EOT,))
    pieces = (
        ("<", bytes((START,))),
        (">", block(0, body)),
        ("<", ACK_START),
        (">", block(1, b"x" * 128)),
        ("<", bytes((ACK,))),
        (">", eot),
        ("<", bytes((NAK,))),
        (">", eot),
        ("<", ACK_START),
        (">", END),
        ("<", bytes((ACK,))),
    )
    return "".join("%d.0 %s %s\n" % (at, way, data.hex()) for at, (way, data) in enumerate(pieces))


@cases(
    case("a name alone in a short block 0", b"old.txt" + bytes(121), WHOLE),
    case("a name alone in a long block 0", b"old.txt" + bytes(1017), WHOLE),
    case("a name, and other fields than a length", b"a\0 12345" + bytes(120), WHOLE),
    case("a name, and three bytes behind it", b"n" * 124 + bytes(4), WHOLE),
    case("two digits, and their end", b"n" * 124 + b"\x0012\0", WHOLE),
    case("three digits that end with block 0", b"n" * 124 + b"\x00123", NO_ROOM),
    case("a digit that ends with block 0", b"n" * 126 + b"\x001", NO_ROOM),
    # as `sb` writes it for a file of 12345 bytes: it counts 97 blocks
    case("a name of 125 bytes, and a count of blocks", b"n" * 125 + b"\0\0a", NO_ROOM),
    case("a name of 127 bytes", b"n" * 127 + b"\0", NO_ROOM),
    case("a name that ends with block 0", b"n" * 128, NO_ROOM),
)
def test_is_told(body, sentence):
    with tempfile.TemporaryDirectory() as folder:
        path = os.path.join(folder, "it.record")
        with open(path, "w", encoding="ascii") as it:
            it.write(session(body))
        lines = told(path)
    assert lines[-1] == sentence, "told %r" % lines
