"""`ymodem send` and `ymodem receive` for a peer of the check's own, each on a line that may be
damaged."""

import contextlib
import socket

from support.program import LIMIT, free_port, running
from support.relay import Relay, at_once


@contextlib.contextmanager
def relayed(port, line):
    """The port to call in place of this one: that of a relay, where there is a line to damage. Such
    a line has to have done its damage at the end."""
    if line is None:
        yield port
        return
    relay = Relay(line, port)
    relay.start()
    yield relay.port
    relay.join(LIMIT)
    assert not relay.fault, "the relay: %r" % relay.fault
    assert (
        line.bad_frames + line.bad_replies >= line.most
    ), "only %d frames and %d replies were damaged" % (line.bad_frames, line.bad_replies)


def accepted(listener):
    """The connection that a sender made. It keeps nothing back, as a serial port does."""
    end, _ = listener.accept()
    at_once(end)
    end.settimeout(None)
    return end


@contextlib.contextmanager
def sending(paths, line=None, words=()):
    """`ymodem send` with these words, and what gives the connection that it makes."""
    with socket.create_server(("127.0.0.1", 0)) as listener:
        listener.settimeout(LIMIT)
        with relayed(listener.getsockname()[1], line) as port, running(
            "send", *words, "--port", port, *paths
        ) as child:
            yield child, lambda: accepted(listener)


@contextlib.contextmanager
def receiving(folder, line=None):
    """`ymodem receive`, and the port to connect to."""
    last = free_port()
    with relayed(last, line) as port, running("receive", "--port", last, folder) as child:
        yield child, port
