"""`ymodem sb` on pipes as standard input and output: no wait ends there, so it asks for nothing by
itself, and goes on where the other end asks again."""

import os
import subprocess

from support.cases import sentence
from support.frames import ACK, ACK_START, EOT, NAK, START, frames_of
from support.on_line import started
from support.program import LIMIT, PROGRAM, folders, write_files
from support.waits import comes

FILES = [("two blocks", b"2" * 2048)]
# A plain receiver asks again where nothing came for so many seconds. It has to only where this
# machine stood still for some.
ASKS_AFTER = 20


def answered(child, reply, length):
    """A frame of this length, behind this reply; where nothing comes it is asked for again."""
    got, again = b"", reply
    while len(got) < length:
        child.stdin.write(again)
        child.stdin.flush()
        again = bytes((NAK,))
        while len(got) < length and comes(child.stdout, ASKS_AFTER):
            more = os.read(child.stdout.fileno(), length - len(got))
            assert more, "it has ended"
            got += more
    return got


@sentence("ymodem sb on pipes: a block that is asked for again goes out again")
def test_asked_again():
    with folders() as (here, _):
        words = [PROGRAM, "sb", *write_files(here, FILES)]
        with started(words, here, stdin=subprocess.PIPE) as child:
            reply = bytes((START,))
            for at, frame in enumerate(frames_of(FILES)):
                for ask in (reply, bytes((NAK,)))[: 2 if at == 1 else 1]:
                    got = answered(child, ask, len(frame))
                    assert got == frame, "frame %d is %r" % (at, got[:3])
                opens = at == 0 or frame == bytes((EOT,))
                reply = ACK_START if opens else bytes((ACK,))
            child.stdin.write(reply)
            child.stdin.flush()
            assert child.wait(LIMIT) == 0, "status %d" % child.returncode
            said = child.stderr.read()
            assert said == b"sender done 1 finished\n", "it said %r" % said
