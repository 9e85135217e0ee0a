"""What a terminal shows of a transfer, line by line."""

import re
import time

from support.frames import ACK, ACK_START, CANCEL, EOT, NAK, START, frames_of
from support.peers import frames_at
from support.program import LIMIT


WIDTHS = (40, 80, 200)
# How long a peer takes for each frame: longer than a terminal waits between two showings, which is
# 0.1 seconds, by more than a busy machine is late with one. Whom an end waits for is shown after 1.
PACE = 0.5


def takes(count, seen):
    """A receiver that takes so many frames, each a while after the one before, and cancels once all
    was seen that is to be seen."""

    def peer(end):
        end.sendall(bytes((START,)))
        for at, _ in enumerate(frames_at(end)):
            time.sleep(PACE)
            if at == count:
                seen.wait(LIMIT)
                end.sendall(CANCEL)
                return
            end.sendall(ACK_START if at == 0 else ACK_START[:1])

    return peer


def gives(files, count, seen):
    """A sender that gives so many frames, each a while after the one before, and cancels once all
    was seen that is to be seen."""

    def peer(end):
        read(end, START)
        for frame in frames_of(files)[:count]:
            time.sleep(PACE)
            end.sendall(frame)
            if frame[0] == EOT:
                read(end, NAK)
                end.sendall(frame)
            read(end, ACK)
            if frame[0] == EOT or frame[1:3] == FIRST:
                read(end, START)
        time.sleep(PACE)
        seen.wait(LIMIT)
        end.sendall(CANCEL)

    return peer


# The number of a block 0, and what stands behind it.
FIRST = b"\x00\xff"


def read(end, wanted):
    """Reads one byte, which is this one."""
    assert end.recv(1) == bytes((wanted,)), "an answer"


def is_progress(line):
    return re.search(r": \d+%", line)


def told(columns, *lines):
    """Lines as a terminal wraps them."""
    return [line[at : at + columns] for line in lines for at in range(0, len(line), columns)]


def packed(text):
    """A text without spaces, which a terminal drops at the end of a line."""
    return text.replace(" ", "")
