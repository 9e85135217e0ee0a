#!/usr/bin/env python3
"""A program of examples/boards on a board of QEMU as a peer of `ymodem-judge`: its serial port is
standard input and output, but for what the board tells people before a session and behind it.

usage: board_peer.py receiver|sender PROGRAM QEMU WORD..

A receiver is sum.elf. A sender is back.elf, which is first sent the file that it sends. The
environment variable FILE names that file.
"""

import contextlib
import os
import select
import socket
import subprocess
import sys

sys.dont_write_bytecode = True
sys.path.insert(0, os.path.dirname(os.path.dirname(os.path.abspath(__file__))))

from support.faulty_peers import say, seen
from support.program import PROGRAM
from support.qemu_words import words_of

READY, AGAIN = b"send files by YMODEM\r\n", b"now receive them by YMODEM\r\n"
# With this begins what the board tells behind a session. No answer has these bytes, and the file
# that is sent has none of them in a row.
TOLD = {"receiver": b"\r\n", "sender": b"\r\nsending: "}
# Seconds after which the front of it that came alone is handed on: it was a frame's.
ALONE = 0.05


def came(line):
    """What came on a line: nothing where the other end has gone with bytes that it did not read."""
    try:
        return line.recv(4096)
    except ConnectionResetError:
        return b""


def load(board):
    """Sends the board the file of this folder, up to where it says that it sends it back. The
    program does that, since a board asks again and again while a busy machine starts a sender."""
    here, there = socket.socketpair()
    sender = subprocess.Popen([PROGRAM, "sb", os.environ["FILE"]], stdin=there, stdout=there)
    there.close()
    out, said = board.stdout.fileno(), b""
    while AGAIN not in said:
        ready = select.select([here, out] if sender.poll() is None else [out], [], [])[0]
        if out in ready:
            data = os.read(out, 4096)
            if not data:
                sys.exit("the board has ended: %r" % said[-200:])
            said += data
            with contextlib.suppress(OSError):  # it has what it needs, and is gone
                here.sendall(data)
        if here in ready:
            board.stdin.write(came(here))
            board.stdin.flush()
    here.close()
    sender.wait()


def front_of(data, told):
    """How many bytes at the end of these may be the front of what is told."""
    return next(
        (n for n in range(min(len(told) - 1, len(data)), 0, -1) if data.endswith(told[:n])), 0
    )


def carried(board, told):
    """Carries what comes on standard input to the board, and what it writes back until it tells how
    that went."""
    out, is_over, held = board.stdout.fileno(), False, b""
    while True:
        ready = select.select([0, out], [], [], ALONE if held else None)[0]
        if not ready:
            say(held)
            held = b""
        if 0 in ready:
            data = os.read(0, 4096)
            if not data:
                return
            board.stdin.write(data)
            board.stdin.flush()
        if out in ready:
            data = os.read(out, 4096)
            if not data:
                return
            if is_over:
                continue
            held += data
            is_over = told in held
            end = held.find(told) if is_over else len(held) - front_of(held, told)
            say(held[:end])
            held = b"" if is_over else held[end:]


def main(kind, program, *machine):
    how = {"stdin": subprocess.PIPE, "stdout": subprocess.PIPE, "stderr": subprocess.DEVNULL}
    words = words_of((*machine, "-kernel", program), "stdio")
    board = subprocess.Popen(words, **how)
    seen(board, READY)
    if kind == "sender":
        load(board)
    carried(board, TOLD[kind])


if __name__ == "__main__":
    main(*sys.argv[1:])
