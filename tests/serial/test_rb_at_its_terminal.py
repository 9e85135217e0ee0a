"""`rb` of lrzsz with a pseudo terminal as its own input and output, as docs/serial.md advises
against."""

import os

from support.cable import plug
from support.cases import sentence
from support.frames import ACK, ACK_START, END, EOT, START, frames_of
from support.on_line import started
from support.plug_end import End
from support.program import LIMIT, folders, wants_same, wants_stored
from support.skipping import needs
from support.tracing import calls_of, strace
from support.waits import wait_until

FILES = [("one.bin", bytes(range(256)) * 5)]


def is_listening(log, replies):
    """Whether `rb` has written so many bytes, and dropped what came before each: it does so behind
    all that it writes."""
    calls = [repr(call) for call in calls_of(log)] if os.path.exists(log) else []
    written = [call for call in calls if call.startswith("write(1, ")]
    return len(written) == replies and calls[-1] == "ioctl(0, TCFLSH, TCIFLUSH)"


def sends(end, log):
    """Sends the files but for the answer to the end block, which nobody reads."""
    end.wants(bytes((START,)))
    replies = 1
    for frame in frames_of(FILES):
        wait_until(lambda: is_listening(log, replies), "rb listens")
        end.sendall(frame)
        if frame != END:
            is_asked_for = frame[0] == EOT or replies == 1
            end.wants(ACK_START if is_asked_for else bytes((ACK,)))
            replies += 1 + is_asked_for


@sentence("rb on its own pseudo terminal empties it behind its last ACK")
def test_empties_its_terminal():
    """Whether that ACK is read before is a matter of luck, and the files are stored."""
    needs("rb")
    with folders() as (here, there), plug() as it:
        log, line = os.path.join(here, "log"), os.open(it.path, os.O_RDWR | os.O_NOCTTY)
        words = [*strace(log, "-e", "trace=write,ioctl"), "rb", "-q"]
        with started(words, there, stdin=line, stdout=line) as rb:
            os.close(line)
            sends(End(it), log)
            wants_same({"status": rb.wait(LIMIT)}, {"status": 0})
        wants_stored(there, FILES)
        calls = [repr(call) for call in calls_of(log)]
    acks = [at for at, call in enumerate(calls) if call == r'write(1, "\6", 1)']
    behind = calls[acks[-1] + 1 :]
    assert "ioctl(0, TCFLSH, TCIOFLUSH)" in behind, "behind its last ACK it made %r" % behind
