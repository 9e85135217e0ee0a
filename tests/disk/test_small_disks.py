"""File systems that fill or become read-only, and few descriptors."""

import contextlib
import os
import random
import signal
import subprocess

import pytest
from support.bounds import writing
from support.cases import case, cases, sentence
from support.frames import EOT, frames_of
from support.program import folders, free_port, run, running, stored, write_files
from support.skipping import Skipped
from support.storing import (
    Meanwhile,
    comes_again,
    part_of,
    received,
    refused,
    told,
    wants_whole_front,
)
from support.waits import listeners, wait_until


pytestmark = pytest.mark.steadily

MIB = 1 << 20
FAULT = "fault: device\n"
CHANCE = random.Random(64)

# Mounts a file system of this size at a folder that it alone sees, says so, and mounts it anew as
# it is told.
HOLDER = (
    'mount -t tmpfs -o "size=$1" none "$0" && echo mounted && while read -r how; do '
    'mount -o "remount,$how" "$0" && echo "$how" || echo not; done'
)


class SmallDisk:
    """A file system of its own, which is seen through the process that holds it."""

    def __init__(self, holder, folder):
        self.holder, self.folder = holder, folder

    def become(self, how):
        self.holder.stdin.write(how + "\n")
        self.holder.stdin.flush()
        if self.holder.stdout.readline() != how + "\n":
            wrong = "the file system did not become " + how
            # Where it is not root's, the system may refuse that; root is refused where a file is
            # open.
            raise Skipped(wrong) if os.geteuid() else AssertionError(wrong)


@contextlib.contextmanager
def small_disk(size):
    with folders() as (_, there):
        words = [
            "unshare",
            "-m" if os.geteuid() == 0 else "-rm",
            "sh",
            "-c",
            HOLDER,
            there,
            str(size),
        ]
        try:
            holder = subprocess.Popen(
                words,
                stdin=subprocess.PIPE,
                stdout=subprocess.PIPE,
                stderr=subprocess.DEVNULL,
                text=True,
            )
        except FileNotFoundError:
            raise Skipped("unshare is not installed") from None
        with holder:
            if holder.stdout.readline() != "mounted\n":
                raise Skipped("no file system can be mounted here")
            yield SmallDisk(holder, "/proc/%d/root%s" % (holder.pid, there))
            holder.stdin.close()


@sentence("a disk that is just large enough")
def test_fills_just():
    """A disk of 1 MiB that is full with the batch, to the last byte."""
    files = [("half", CHANCE.randbytes(MIB // 2)), ("other half", CHANCE.randbytes(MIB // 2))]
    with small_disk(MIB) as disk:
        received(files, disk.folder)[0].wants(0, told(files))
        assert stored(disk.folder) == dict(files), "it holds other files"


@cases(
    case("a folder that becomes read-only", []),
    case(
        "a folder that becomes read-only, --no-sync --discard-parts",
        ["--no-sync", "--discard-parts"],
    ),
)
def test_becomes_read_only(flags):
    """Between two files the folder becomes one that is only read."""
    files = [("first", CHANCE.randbytes(3000)), ("second", b"abc")]
    second = [at for at, frame in enumerate(frames_of(files)) if frame[0] == EOT][0] + 1
    with small_disk(MIB) as disk:
        ended, _ = received(
            files, disk.folder, flags, meanwhile=Meanwhile(second, lambda: disk.become("ro"))
        )
        ended.wants(3, refused(1, files), FAULT)
        assert stored(disk.folder) == dict(files[:1]), "it holds other files"


# The most bytes of a file, of one that has more.
MOST, LARGE = 65_536, 200_000


@sentence("a limit on file sizes, at which the system ends a program")
def test_is_ended_at_a_limit():
    """What is left is what a kill leaves: the files before it, whole, and a part."""
    files = [("first", CHANCE.randbytes(3000)), ("large", CHANCE.randbytes(LARGE))]
    with folders() as (_, there):
        ended, _ = received(files, there, before=("prlimit", "--fsize=%d" % MOST))
        ended.wants(-signal.SIGXFSZ, "")
        count, parts = wants_whole_front(stored(there), files)
        assert (count, parts) == (1, [part_of("large")]), "it has %d files, %r" % (count, parts)
        comes_again(files, there)


@sentence("a limit on file sizes, at which the system is asked to end nobody")
def test_is_refused_at_a_limit():
    """It is told as a disk is that is full, and nothing is left of the file."""
    files = [("first", CHANCE.randbytes(3000)), ("large", CHANCE.randbytes(LARGE))]
    why = "cannot store 'large': the file system or a limit takes no file so large\n"
    with folders() as (_, there):
        ended, _ = received(files, there, ["--verbose"], writing(MOST))
        ended.wants(3, refused(1, files), ended.err)
        assert ended.err.endswith(why + FAULT), "it told %r" % ended.err
        assert stored(there) == dict(files[:1]), "it holds other files"


def with_descriptors(folder):
    """The words before those of the program: it runs in this folder, and may have 64 files open."""
    return ("sh", "-c", 'cd "$0" && ulimit -n 64 && exec "$@"', folder)


@cases(
    case("1000 files with 64 descriptors", 1000),
    case("100 files of 300 bytes with 64 descriptors", 100, (), bytes(300)),
    case("3000 files with 64 descriptors, --no-sync", 3000, ["--no-sync"]),
    case(
        "65535 files with 64 descriptors, --no-sync", 65_535, ["--no-sync"], marks=pytest.mark.long
    ),
)
def test_many_files(count, flags=(), data=b""):
    """A batch of so many files, with 64 descriptors at either end: each is closed behind its last
    block."""
    files = [(str(number), data) for number in range(count)]
    names = [name for name, _ in files]
    with folders() as (here, there):
        write_files(here, files)
        port = free_port()
        with running(
            "receive", "--port", port, *flags, there, before=with_descriptors(there)
        ) as receive:
            wait_until(lambda: listeners(port), "it listened", receive)
            with running("send", "--port", port, *names, before=with_descriptors(here)) as send:
                send.ended().wants(0, "sender done %d finished\n" % count)
            ended = receive.ended()
            why = "receive ended with status %d, and told %r" % (ended.status, ended.out[-80:])
            assert not ended.status and ended.out == told(files), why
        assert set(os.listdir(there)) == set(names), "it stored %d files" % len(os.listdir(there))


@sentence("65536 files are too many, with 64 descriptors")
def test_too_many_files():
    with folders() as (here, _):
        write_files(here, [("a", b"")])
        run("send", "--port", free_port(), *["a"] * 65_536, before=with_descriptors(here)).wants(
            2, "", "fault: too many files\n"
        )


@pytest.mark.long
@sentence("65535 files are looked at with 64 descriptors")
def test_most_files():
    """As many as there may be are looked at before the line is opened; here nobody listens."""
    with folders() as (here, _):
        write_files(here, [("a", b"")])
        run("send", "--port", free_port(), *["a"] * 65_535, before=with_descriptors(here)).wants(
            3, "", FAULT
        )


TWO_FILES = [("first", CHANCE.randbytes(600_000)), ("second", CHANCE.randbytes(600_000))]


@cases(
    case("a disk that fills within the first file", [("large", CHANCE.randbytes(1_200_000))], 0),
    case("a disk that fills within the second file", TWO_FILES, 1),
    case("a disk that fills within the second file, --no-sync", TWO_FILES, 1, ["--no-sync"]),
    case(
        "a disk that fills with the last bytes of a file", [("first", CHANCE.randbytes(MIB + 1))], 0
    ),
)
def test_fills(files, count, flags=()):
    """A disk of 1 MiB on which so many files find room. What does not is told, and none of it
    stays."""
    with small_disk(MIB) as disk:
        ended, _ = received(files, disk.folder, flags)
        ended.wants(3, refused(count, files), FAULT)
        found = stored(disk.folder)
        assert found == dict(files[:count]), "it holds %s" % ", ".join(
            "%s of %d bytes" % (name, len(data)) for name, data in found.items()
        )
