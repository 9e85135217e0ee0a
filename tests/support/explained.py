"""What `ymodem explain` tells of recorded sessions."""

import os
import re
import subprocess

from support.program import LIMIT, PROGRAM, ROOT


DATA = os.path.join(ROOT, "tests", "explain", "sessions")
PIECE = re.compile(r"^(\d+\.\d+) ([<>]) ([0-9a-f]*)$", re.M)


def explained(*words, **how):
    """How `ymodem explain` ended with these words."""
    how = {"stdin": subprocess.DEVNULL, "stdout": subprocess.PIPE, **how}
    return subprocess.run(
        [PROGRAM, "explain", *words],
        stderr=subprocess.PIPE,
        text=True,
        timeout=LIMIT,
        check=False,
        **how
    )


def told(*words, **how):
    """The lines that are told of files."""
    done = explained(*words, **how)
    assert done.returncode == 0, "status %d: %s" % (done.returncode, done.stderr[-300:])
    assert not done.stderr, "standard error has %r" % done.stderr[-300:]
    return done.stdout.splitlines()


def record_of(name):
    path = os.path.join(DATA, name + ".record")
    with open(path, encoding="ascii") as it:
        text = it.read()
    return path, text.split("\n", 1)[0][2:], text


def recorded():
    """The names of the recorded sessions."""
    return sorted(it[:-7] for it in os.listdir(DATA) if it.endswith(".record"))


def ways(text):
    """The bytes of each way of a record."""
    found = {">": b"", "<": b""}
    for _, way, digits in PIECE.findall(text):
        found[way] += bytes.fromhex(digits)
    return found[">"], found["<"]


def within_bounds(*words):
    """A capture is told in seconds and little memory."""
    # A bound of the system, and not ru_maxrss: behind a vfork a child's has its parent's pages.
    within = 'ulimit -v %d; exec "$0" "$@"' % (64 * 1024)
    with open(os.devnull, "w", encoding="ascii") as nowhere:
        it = subprocess.Popen(["/bin/sh", "-c", within, PROGRAM, "explain", *words], stdout=nowhere)
        _, status, used = os.wait4(it.pid, 0)
        it.returncode = status
    assert status == 0, "status %d within 64 MiB" % status
    assert used.ru_utime < 10, "%.1f s were used" % used.ru_utime


def crc(data):
    rest = 0
    for byte in data:
        rest ^= byte << 8
        for _ in range(8):
            rest = (rest << 1) ^ 0x1021 if rest & 0x8000 else rest << 1
        rest &= 0xFFFF
    return rest.to_bytes(2, "big")
