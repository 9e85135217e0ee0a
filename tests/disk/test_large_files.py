"""Large files at full speed: past the places where a number of 21, 31 or 32 bits would turn
over."""

import os
import random
import re
import shutil

import pytest
from support.cases import case, cases
from support.frames import CANCEL, FRAME_LENGTHS, SOH, START, header
from support.peers import send_to
from support.program import (
    LIMIT,
    file_lines,
    folders,
    free_port,
    run,
    running,
    wants_stored,
    write_files,
)
from support.skipping import Skipped
from support.waits import listeners, wait_until


MIB, GIB = 1 << 20, 1 << 30
# A file with holes, past 2^32.
HUGE = 5 * GIB + 77
# Places at which a narrow number turns over.
TURNS = (1 << 21, 1 << 31, 1 << 32)
# Seconds for a file of 5 GiB, on a machine with much else to do.
LONG_LIMIT = 3600
SHOWN = re.compile(r"large: (\d+)%, (\d+) of (\d+) bytes, ")


def fill(path, size):
    """Writes a file of bytes by chance."""
    chance = random.Random(size)
    with open(path, "wb") as it:
        for at in range(0, size, MIB):
            it.write(chance.randbytes(min(MIB, size - at)))


def fill_with_holes(path, size):
    """Writes a file whose bytes tell their place at each MiB and around each turn, and 0
    between."""
    chance = random.Random(size)
    with open(path, "wb") as it:
        it.truncate(size)
        for at in range(0, size - 8, MIB):
            it.seek(at)
            it.write(at.to_bytes(8, "big"))
        for turn in (it for it in TURNS if it + 3000 < size):
            it.seek(turn - 3000)
            it.write(chance.randbytes(6000))
        it.seek(size - 70)
        it.write(chance.randbytes(70))


def wants_equal(sent, kept):
    """Fails at the first MiB in which two files differ."""
    assert os.path.getsize(kept) == os.path.getsize(sent), "it has %d bytes, wanted %d" % (
        os.path.getsize(kept),
        os.path.getsize(sent),
    )
    with open(sent, "rb") as one, open(kept, "rb") as other:
        at = 0
        while wanted := one.read(MIB):
            assert other.read(MIB) == wanted, "it differs in the MiB from place %d on" % at
            at += MIB


def wants_shown(text, size, places):
    """Fails where what was shown of a file names another length, goes back, or passes none of the
    places between two that are next to one another."""
    seen = [tuple(map(int, it)) for it in SHOWN.findall(text)]
    at = [it[1] for it in seen]
    assert (
        not ({it[2] for it in seen} - {size})
        and at == sorted(at)
        and not any(it > size for it in at)
    ), "it showed %r" % seen
    assert not any(shown != at * 100 // size for shown, at, _ in seen), (
        "it showed other parts of a hundred: %r" % seen
    )
    for low, high in zip(places, places[1:]):
        assert any(low <= it < high for it in at), "it showed nothing from %d to %d: %r" % (
            low,
            high,
            at,
        )
    assert "large: %d bytes in " % size in text, "it did not tell that %d bytes are there: %r" % (
        size,
        text[-200:],
    )


@cases(
    case("3 MiB at full speed", fill, 3 * MIB),
    case("3 MiB and a byte at full speed, --no-sync", fill, 3 * MIB + 1, ["--no-sync"]),
    case("64 MiB at full speed", fill, 64 * MIB),
    case(
        "5 GiB with holes at full speed, --no-sync",
        fill_with_holes,
        HUGE,
        ["--no-sync"],
        (0, *TURNS[1:], HUGE),
        LONG_LIMIT,
        marks=pytest.mark.long,
    ),
)
def test_arrives(make, size, flags=(), places=(), limit=LIMIT):
    """A file from the program to the program, with nothing between them: each byte is there, and
    what either end reports and shows is so."""
    with folders() as (here, there):
        if shutil.disk_usage(there).free < size + GIB:
            raise Skipped("the disk has no room for %d bytes" % size)
        path, port = os.path.join(here, "large"), free_port()
        make(path, size)
        words = ("receive", "--port", port, "--verbose", "--eager", *flags, there)
        with running(*words, limit=limit) as receive:
            wait_until(lambda: listeners(port), "it listened", receive)
            with running("send", "--port", port, "--verbose", path, limit=limit) as send:
                sent, received = send.ended(), receive.ended()
        sent.wants(0, "sender done 1 finished\n", sent.err)
        told = "file large %d - -\nreceiver files 1 finished\n" % size
        received.wants(0, told, received.err)
        assert os.listdir(there) == ["large"], "it left %s" % ", ".join(sorted(os.listdir(there)))
        wants_equal(path, os.path.join(there, "large"))
        for text in (sent.err, received.err):
            wants_shown(text, size, places)


@cases(case("a batch of 1,100 files", 1100))
def test_many_files(count):
    """A batch of so many files: each is there, and told by both ends."""
    files = [("%04d" % at, b"%d" % at) for at in range(count)]
    with folders() as (here, there):
        paths, port = write_files(here, files), free_port()
        with running("receive", "--port", port, "--eager", "--no-sync", there) as receive:
            wait_until(lambda: listeners(port), "it listened", receive)
            run("send", "--port", port, *paths).wants(0, "sender done %d finished\n" % count)
            told = file_lines(files) + "receiver files %d finished\n" % count
            receive.ended().wants(0, told)
        wants_stored(there, files)


LENGTHS = [turn + by for turn in TURNS for by in (-1, 0, 1)] + [(1 << 40) + 1]


@cases(*(case("a file of %d bytes tells its length" % it, it) for it in LENGTHS))
def test_length_is_told(size):
    """The length that block 0 tells of a file with holes, to whoever leaves then."""
    heard = []

    def leave(end):
        end.sendall(bytes((START,)))
        while len(b"".join(heard)) < FRAME_LENGTHS[SOH]:
            heard.append(end.recv(FRAME_LENGTHS[SOH]))
        end.sendall(CANCEL)

    with folders() as (here, _):
        path = os.path.join(here, "large")
        with open(path, "wb") as it:
            it.truncate(size)
        send_to(leave, [], paths=[path]).wants(1, "sender done 0 cancelled\n")
    assert b"".join(heard) == header(b"large", b"%d" % size), "it wrote %r" % b"".join(heard)
