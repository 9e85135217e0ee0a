"""Peers that send and expect in turns."""

import contextlib
import socket
import struct
import time

from support.frames import DELIVERY


def take(end, count):
    """So many bytes of what the program writes, or what there is before it closes."""
    got = b""
    while len(got) < count:
        with contextlib.suppress(ConnectionResetError):
            more = end.recv(count - len(got))
            if more:
                got += more
                continue
        break
    return got


def expect(end, wanted):
    got = take(end, len(wanted))
    assert got == wanted, "the program wrote %s, wanted %s" % (got.hex(), wanted.hex())


def expect_no_more(end):
    got = take(end, 1)
    assert not got, "the program wrote %s more" % got.hex()


def talks(*turns):
    """Sends and expects in turns, then waits for the end."""

    def peer(end):
        for data, reply in turns:
            end.sendall(data)
            expect(end, reply)
        expect_no_more(end)

    return peer


SCRIPT = (
    b"file a "
    + b"41" * 2000
    + b"\nfile b -\nok 2\nround hex:00 lost\nround whole hex:AA06\nround lost whole\nok 9\nround"
    b" whole lost\nok 40\n"
)


JUNK = bytes(DELIVERY)


def reset(end):
    end.setsockopt(socket.SOL_SOCKET, socket.SO_LINGER, struct.pack("ii", 1, 0))
    end.close()


def floods(end, count=4096):
    """So many deliveries of junk, in one call: in a call for each they take long beside hundreds of
    other tests."""
    with contextlib.suppress(OSError):
        end.sendall(count * JUNK)


def never_stops(end):
    """Sends junk until the other end has gone, with no pause in which a wait could end by
    itself."""
    with contextlib.suppress(OSError):
        while True:
            end.sendall(JUNK)
            time.sleep(0.02)
