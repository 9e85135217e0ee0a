"""Transfers with the programs `sb` and `rb` of lrzsz, over a pump between their standard streams
and a connection."""

import contextlib
import os
import random
import socket
import subprocess
import tempfile
import time

import pytest
from support.batches import ASKED, BATCHES, EMPTY_FIRST, SINGLE
from support.cases import case, cases, sentence
from support.claims import Claim, claim_of_receive, claim_of_send, wants_true
from support.frames import block
from support.lrzsz import beside_lrzsz
from support.one_end import relayed
from support.program import (
    LIMIT,
    connected,
    folders,
    free_port,
    running,
    stored,
    wants_stored,
    write_files,
)
from support.relay import Clean
from support.serial_line import Apart, Counted, SerialLine


def files():
    chance = random.Random(12)
    sizes = (0, 1, 127, 128, 129, 1023, 1024, 1025, 3000, 33333)
    made = [("size-%d.bin" % size, chance.randbytes(size)) for size in sizes]
    return [*made, ("two words.txt", b"\x1a" * 200), ("n" * 100, b"\x18\x18\x04" * 100)]


def wants_status_0(who, status, ended):
    assert not status, "%s ended with status %d, the program with %d: %r" % (
        who,
        status,
        ended.status,
        ended.err,
    )


@cases(
    case("files from sb"),
    case("files from sb -k", ["-k"]),
    case("files from sb, --single", receive_flags=["--single"]),
)
def test_from_sb(flags=(), receive_flags=()):
    with folders() as (here, there):
        batch = files()
        write_files(here, batch)
        for name, _ in batch:
            os.utime(os.path.join(here, name), (1234567890, 1234567890))
            os.chmod(os.path.join(here, name), 0o644)
        port = free_port()
        with running("receive", "--port", port, *receive_flags, there) as receive, connected(
            port
        ) as end:
            ended, status = beside_lrzsz(
                ["sb", *flags, *(name for name, _ in batch)], here, end, receive
            )
        wants_status_0("sb", status, ended)
        lines = "".join(
            "file %s %d %o 100644\n" % (name, len(data), 1234567890) for name, data in batch
        )
        ended.wants(0, lines + "receiver files %d finished\n" % len(batch))
        wants_stored(there, batch)


def wants_at_rb(batch, flags=(), line=None):
    """`send` brings these to `rb`, over this line."""
    with folders() as (here, there), socket.create_server(("127.0.0.1", 0)) as listener:
        paths = write_files(here, batch)
        listener.settimeout(LIMIT)
        listens_at = listener.getsockname()[1]
        with relayed(listens_at, line) if line else contextlib.nullcontext(listens_at) as port:
            with running("send", "--port", port, *flags, *paths) as send:
                end, _ = listener.accept()
                with end:
                    ended, status = beside_lrzsz(["rb"], there, end, send)
        wants_status_0("rb", status, ended)
        ended.wants(0, "sender done %d finished\n" % len(batch))
        wants_stored(there, batch)


@cases(case("files to rb"), case("files to rb, --short", ("--short",)))
def test_to_rb(flags=()):
    wants_at_rb(files(), flags)


class LosesTheFirstAnswer(Clean):
    """A line that loses what is said behind the first block 0, until that comes again."""

    def __init__(self):
        self.frames = self.bad_frames = self.bad_replies = 0
        self.most = 1

    def there(self, frame):
        self.frames += 1
        return frame

    def back(self, reply):
        if self.frames != 1:
            return reply
        self.bad_replies += 1
        return b""


@pytest.mark.slow
@sentence("a file to rb whose answer to block 0 is lost")
def test_to_rb_that_says_no_c():
    """`rb` says ACK to a block 0 that comes again, and no C. Then it asks by NAK, as for a block."""
    wants_at_rb(files()[:4], line=LosesTheFirstAnswer())


@cases(
    case("rx is told as a receiver of XMODEM", ("rx", "got"), "the receiver asks by NAK, "),
    case("rx -c is told as one, too", ("rx", "-c", "got"), "the receiver took block 0 and "),
)
def test_to_rx(words, told):
    """It takes no block 0, so nothing comes over, and a person is told why."""
    with folders() as (here, there), socket.create_server(("127.0.0.1", 0)) as listener:
        paths = write_files(here, [("first.bin", bytes(300))])
        listener.settimeout(LIMIT)
        flags = ("--verbose", "--port", listener.getsockname()[1])
        with running("send", *flags, *paths) as send:
            end, _ = listener.accept()
            with end:
                ended, _ = beside_lrzsz(list(words), there, end, send)
        ended.wants(1, "sender done 0 no-reply\n", ended.err)
        last = ended.err.splitlines()[-1]
        assert last.startswith(told), "it told %r" % ended.err


@cases(
    *(
        case(
            "no file is lost where sb was asked %d times, each block 0 in a read of its own, %d"
            " baud%s" % (asked, baud, how),
            EMPTY_FIRST,
            Apart,
            baud,
            asked,
            flags,
        )
        for baud in (9600, 19_200, 115_200)
        for asked in (2, 3)
        for how, flags in SINGLE
    ),
    *(
        case(
            "files from sb that was asked %d times, %d baud, %s" % (asked, baud, which),
            batch,
            Counted,
            baud,
            asked,
            [],
        )
        for asked in ASKED
        for (which, batch), baud in zip(BATCHES, (9600, 19_200, 115_200))
    ),
)
def test_from_late_sb(batch, line, baud, asked, receive_flags):
    """`sb` on a serial line, started when the receiver has asked so many times: it answers each C
    that waits in its input by a block 0."""
    with folders() as (here, there):
        write_files(here, batch)
        port = free_port()
        relay = SerialLine(line(), port, baud, asked)
        relay.start()
        with running("receive", "--port", port, *receive_flags, there) as receive:
            relay.due.wait()
            with connected(relay.port) as end:
                ended, status = beside_lrzsz(
                    ["sb", *(name for name, _ in batch)], here, end, receive
                )
        claims = [claim_of_receive(ended, batch), Claim("sb", status == 0)]
        wants_true(batch, stored(there), claims, wants_finished=True)


@cases(
    *(
        case("files to rb that starts %d s late" % seconds, BATCHES[0][1], seconds, [])
        for seconds in (4, 12, 29)
    )
)
def test_to_late_rb(batch, seconds, flags):
    """`rb` that starts so late, when `send` is waiting for it."""
    with folders() as (here, there), socket.create_server(("127.0.0.1", 0)) as listener:
        paths = write_files(here, batch)
        listener.settimeout(LIMIT)
        with running("send", "--port", listener.getsockname()[1], *flags, *paths) as send:
            end, _ = listener.accept()
            with end:
                time.sleep(seconds)
                ended, status = beside_lrzsz(["rb"], there, end, send)
        wants_true(
            batch,
            stored(there),
            [claim_of_send(ended), Claim("rb", status == 0)],
            wants_finished=True,
        )


def until(stream, wanted):
    """Reads until these bytes came."""
    got = b""
    while wanted not in got:
        more = os.read(stream.fileno(), 1024)
        assert more, "%r came in place of %r" % (got, wanted)
        got += more


def piped(words, folder, **how):
    pipes = dict(stdin=subprocess.PIPE, stdout=subprocess.PIPE, bufsize=0)
    return subprocess.Popen(words, cwd=folder, **pipes, **how)


@sentence("rb that is killed leaves a file")
def test_rb_that_is_killed():
    """`rb` that is killed leaves what came so far under the file's own name."""
    with tempfile.TemporaryDirectory() as there:
        with piped(["rb"], there, stderr=subprocess.DEVNULL) as rb:
            until(rb.stdout, b"C")
            rb.stdin.write(block(0, b"a.bin\x00500000 0 100644\x00".ljust(128, b"\0")))
            until(rb.stdout, b"\x06C")
            for number in range(1, 101):
                rb.stdin.write(block(number, bytes(1024)))
                until(rb.stdout, b"\x06")
            rb.kill()
        left = stored(there)
        assert list(left) == ["a.bin"] and len(left["a.bin"]) < 500000, "it left %r" % {
            name: len(data) for name, data in left.items()
        }


@sentence("what sb tells where it is cancelled")
def test_sb_that_is_cancelled():
    """`sb` tells no more than that it was cancelled, and that the transfer is incomplete."""
    with tempfile.TemporaryDirectory() as here:
        write_files(here, [("f.bin", bytes(5000))])
        shows, other = os.openpty()
        with piped(["sb", "f.bin"], here, stderr=other) as sb:
            os.close(other)
            sb.stdin.write(b"C")
            until(sb.stdout, b"f.bin")
            sb.stdin.write(b"\x18" * 5)
            sb.stdin.close()
            status = sb.wait(LIMIT)
        told = b""
        with contextlib.suppress(OSError):  # what a terminal says whose other end is closed
            while more := os.read(shows, 4096):
                told += more
        os.close(shows)
        last = told.split()[-3:]
        assert (status, last) == (
            128,
            [b"Cancelled", b"Transfer", b"incomplete"],
        ), "status %d, and it told %r" % (status, told)
