#!/usr/bin/env python3
"""What a block of 1024 bytes costs in the library for C, in instructions, and what the programs of
examples/boards take: text, data, and the deepest stack.

On x86-64, of the archive, callgrind counts 100 blocks and 200, and the difference is told. On
each board QEMU counts: with `-icount shift=0` an instruction takes a nanosecond of the board's time, and
blocks.elf tells how many milliseconds its blocks took. The stack is painted when a program begins,
and what is told is how far it was written when a batch had come from `ymodem send`, and had gone to
`ymodem receive`.

usage: blocks.py       it needs valgrind, and for each board what tests/boards needs
"""

import os
import re
import sys
import tempfile
from concurrent.futures import ThreadPoolExecutor

sys.dont_write_bytecode = True
ROOT = os.path.dirname(os.path.dirname(os.path.abspath(__file__)))
sys.path.insert(0, os.path.join(ROOT, "tests"))

from support.commands import command
from support.example_boards import AGAIN, BOARDS, READY, SENT, few, summed, to_program
from support.library import INCLUDE, LIBRARY, STRICT
from support.program import folders, write_files
from support.qemu import from_program
from support.skipping import Skipped

WAYS = {"bulk": "receiver, fed in bulk", "bytes": "receiver, fed byte by byte", "sender": "sender"}
COUNTED = re.compile(r"refs:\s+([\d,]+)")


def on_this_machine():
    """The instructions of a block in each way, on x86-64."""
    with tempfile.TemporaryDirectory(prefix="ymodem-") as top:
        made, source = os.path.join(top, "blocks"), os.path.join(ROOT, "bench", "blocks.c")
        where = ["-I", INCLUDE, "-I", os.path.join(ROOT, "examples", "boards")]
        command("cc", "-std=gnu11", "-O2", *STRICT, *where, source, LIBRARY, "-o", made)
        counter = ["valgrind", "--tool=callgrind", "--callgrind-out-file=/dev/null", made]
        for way, told in WAYS.items():
            few, many = (command(*counter, way, str(count)) for count in (100, 200))
            few, many = (int(COUNTED.search(it)[1].replace(",", "")) for it in (few, many))
            print("x86-64: %s: %d instructions a block" % (told, round((many - few) / 100)))


def blocks_on(name, board):
    """The same on a board."""
    with board.turned_on("blocks.elf", "-icount", "shift=0") as (port, _):
        port.sees(rb"the end\r\n")
    for told, count, took in re.findall(rb"([^\r\n]*): (\d+) blocks, (\d+) ms\r\n", port.said):
        each = int(took) * 1_000_000 // int(count)
        print("%s: %s: %d instructions a block" % (name, told.decode(), each))


def sizes_on(name, board):
    """What the programs take, with a batch there and back."""
    batch = few()
    with folders() as (here, there):
        paths = write_files(here, batch)
        with board.turned_on("sum.elf") as (port, _):
            port.sees(READY)
            from_program(paths)(port)
            told = (*board.sizes("sum.elf"), summed(port, batch))
            print("%s: a receiver alone: text %d, data %d, stack %d" % (name, *told))
        with board.turned_on("back.elf") as (port, _):
            port.sees(READY)
            from_program(paths)(port)
            port.sees(AGAIN)
            to_program()(port, there, batch)
            found = port.sees(SENT)
            assert found[1] == b"done", "it tells %s" % found[1].decode()
            told = (*board.sizes("back.elf"), int(found[2]))
            print("%s: both ends: text %d, data %d, stack %d" % (name, *told))


def measured(named):
    try:
        sizes_on(*named)
        blocks_on(*named)
    except Skipped as fault:
        print("%s: skipped: %s" % (named[0], fault))


def main():
    if len(sys.argv) > 1:
        sys.exit(__doc__)
    on_this_machine()
    with ThreadPoolExecutor(len(BOARDS)) as pool:
        list(pool.map(measured, BOARDS.items()))


if __name__ == "__main__":
    main()
