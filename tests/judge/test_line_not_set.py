"""What `ymodem judge` tells of a serial line that was not set."""

import os
import time

from support.cable import plug
from support.cases import case, cases
from support.on_line import says, started
from support.program import PROGRAM, folders
from support.system_calls import READ, waits_in

ENDLESS = (
    "reads of the line do not end by themselves: set it by `stty raw -echo clocal min 0 time 1`\n"
)


@cases(
    case("judge: a receiver on a line that was not set", "receiver"),
    case("judge: a sender on a line that was not set", "sender"),
)
def test_endless(kind):
    """A read waits until a byte comes. Then it is told what to do, and no other case begins: its
    read would wait as well."""
    with folders() as (here, _), plug() as it:
        with started([PROGRAM, "judge", kind, "--line", it.path], here) as child:
            waits_in(child.pid, READ, it.path)
            # that the first byte comes late is what it is found out by
            time.sleep(1.5)
            os.write(it.inner, b"C")
            says(child, 3, "", "start the peer: plain\n" + ENDLESS + "fault: device\n")
