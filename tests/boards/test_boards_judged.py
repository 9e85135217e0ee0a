"""The library for C on boards of QEMU, judged as any peer is (`tests/judge` has the others)."""

import os
import shlex
import sys

from support.cases import case, cases
from support.example_boards import BOARDS
from support.judged import judged, told
from support.program import ROOT


PEER = [sys.executable, os.path.join(ROOT, "tests", "support", "board_peer.py")]
# A receiver that keeps no file, and what sends back what it has received.
PROGRAMS = {"receiver": "sum.elf", "sender": "back.elf"}
# Those of the cases that are tried here. docs/peers.md has what came of all.
NAMES = {
    "receiver": ("plain", "data block 1: damaged", "EOT: lost"),
    "sender": ("plain", "answer to data block 1: lost", "answer to EOT: C in its place"),
}


def peer(kind, board):
    """The command of a board's program as a peer."""
    return shlex.join([*PEER, kind, board.program(PROGRAMS[kind]), *board.machine])


@cases(
    *(
        case("judge: the library on a board, %s: a %s" % (name, kind), kind, board)
        for name, board in BOARDS.items()
        for kind in PROGRAMS
    )
)
def test_conforms(kind, board):
    """A program of examples/boards does what the reference does."""
    words = [word for name in NAMES[kind] for word in ("--only", name)]
    if kind == "receiver":
        words.append("--elsewhere")
    status, found = judged(kind, peer(kind, board), *words)
    assert set(found) == set(NAMES[kind]), "%r" % found
    wrong = [told(it) for it in found.values() if it["finding"] != "conforms"]
    assert not wrong, "; ".join(wrong)
    assert status == 0, "status %d" % status
