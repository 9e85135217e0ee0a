"""The programs of examples/boards on boards of QEMU without an operating system: a Cortex-M3,
RISC-V of 32 bits and 64-bit ARM. A batch goes to the board from `ymodem send` or `sb`, which tells
the CRC-32 of each file, and comes back to `ymodem receive` or `rb`: on clean lines, on lines that
damage deliveries of both ways, and with peers that start late.
"""

import socket
import subprocess

import pytest
from support.cases import case, cases
from support.example_boards import (
    AGAIN,
    BOARDS,
    M3,
    READY,
    SENT,
    few,
    files,
    joined,
    summed,
    to_program,
)
from support.program import LIMIT, folders, wants_stored, write_files
from support.qemu import from_lrzsz, from_program
from support.relay import Seeded
from support.skipping import needs


# ---- What comes to the board


def late(send, asked=3):
    """What sends once the board has asked so many times."""

    def prepared(paths):
        def sends(port):
            port.sees(READY + b"C" * asked)
            send(paths)(port)

        return sends

    return prepared


def sb(*words):
    return lambda paths: from_lrzsz(*words, *paths)


def damaged(seed):
    return lambda paths: from_program(paths, Seeded(seed, 0.2, 5))


def to_rb(port, there, _):
    needs("rb")
    here, end = socket.socketpair()
    how = {"stdin": end, "stdout": end, "stderr": subprocess.PIPE, "cwd": there}
    child = subprocess.Popen(["rb", "-q"], **how)
    end.close()
    try:
        joined(port, here)
        _, said = child.communicate(timeout=LIMIT)
    finally:
        child.kill()
        child.communicate()
    assert child.returncode == 0, "rb: status %d: %r" % (child.returncode, said)


# ---- Checks

# The stack of a receiver, and of a sender, whose blocks and frames stand there.
RECEIVES_IN, SENDS_IN = 4096, 12288


# A receiver's text, its RAM with the stack, and the text of both ends, on a Cortex-M3.
LIMITS = (24 * 1024, 3584, 32 * 1024)
# The text and the RAM of one that goes by the plainer rule of time.
SMALL = (14 * 1024, 3584)


NAMED = [(name, board, 72 + 100 * at) for at, (name, board) in enumerate(BOARDS.items())]


@cases(
    *(
        case(
            "%s: from ymodem send, and to ymodem receive" % name, board, from_program, to_program()
        )
        for name, board, _ in NAMED
    ),
    *(case("%s: from sb, and to rb" % name, board, sb(), to_rb) for name, board, _ in NAMED),
    *(
        case(
            "%s: five deliveries damaged each way" % name,
            board,
            damaged(seed),
            to_program(Seeded(seed + 1, 0.2, 5)),
            few,
        )
        for name, board, seed in NAMED
    ),
    *(
        case(
            "%s: peers that start late" % name, board, late(from_program), to_program(asked=3), few
        )
        for name, board, _ in NAMED
    ),
    *(
        case("%s: from sb -k, and to rb" % name, board, sb("-k"), to_rb, marks=pytest.mark.long)
        for name, board, _ in NAMED
    ),
    *(
        case(
            "%s: from sb, late, and to rb" % name, board, late(sb()), to_rb, marks=pytest.mark.long
        )
        for name, board, _ in NAMED
    ),
    *(
        case(
            "%s: other five deliveries damaged, %d" % (name, more),
            board,
            damaged(seed + 10 + 2 * more),
            to_program(Seeded(seed + 11 + 2 * more, 0.2, 5)),
            few,
            marks=pytest.mark.long,
        )
        for name, board, seed in NAMED
        for more in range(8)
    )
)
def test_there_and_back(board, send, receive, batch_of=files):
    """A batch goes to the board, and comes back."""
    batch = batch_of()
    with folders() as (here, there), board.turned_on("back.elf") as (port, _):
        paths = write_files(here, batch)
        port.sees(READY)
        send(paths)(port)
        found = port.sees(AGAIN)
        assert board.told(batch) in port.said, "it tells %r" % port.said[-1500:]
        assert int(found[1]) < RECEIVES_IN, "the stack was used to %s bytes" % found[1].decode()
        receive(port, there, batch)
        found = port.sees(SENT, found.end())
        assert found[1] == b"done", "it tells %s" % found[1].decode()
        assert int(found[2]) < SENDS_IN, "the stack was used to %s bytes" % found[2].decode()
        wants_stored(there, batch)


def receives_alone(board, program, send, batch):
    """Has a receiver that keeps no file receive these, and tells the deepest stack."""
    with folders() as (here, _), board.turned_on(program) as (port, _):
        paths = write_files(here, batch)
        port.sees(READY)
        send(paths)(port)
        return summed(port, batch)


@cases(
    *(
        case("%s: a receiver alone" % name, board, LIMITS if board is M3 else None)
        for name, board, _ in NAMED
    )
)
def test_receiver_alone(board, limits=None):
    """A receiver that keeps no file, and what it and both ends take, where that is bounded."""
    stack = receives_alone(board, "sum.elf", from_program, files())
    if not limits:
        return
    text, kept = board.sizes("sum.elf")
    both, _ = board.sizes("back.elf")
    told = "text %d, RAM %d, stack %d; both ends: text %d" % (text, kept, stack, both)
    assert text <= limits[0] and kept + stack <= limits[1] and both <= limits[2], told


@cases(
    *(
        case("%s: with little room, %s" % (name, words), board, send, batch_of)
        for name, board, seed in NAMED
        for words, send, batch_of in (
            ("from ymodem send", from_program, files),
            ("from sb", sb(), files),
            ("five deliveries damaged", damaged(seed + 50), few),
            ("from sb that starts late", late(sb()), few),
        )
    )
)
def test_little_room(board, send, batch_of):
    """A receiver that goes by the plainer rule of time, and what it takes on a Cortex-M3."""
    stack = receives_alone(board, "small.elf", send, batch_of())
    if board is M3:
        text, kept = board.sizes("small.elf")
        told = "text %d, RAM %d, stack %d" % (text, kept, stack)
        assert text <= SMALL[0] and kept + stack <= SMALL[1], told
