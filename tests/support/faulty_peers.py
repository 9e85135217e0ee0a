#!/usr/bin/env python3
"""A receiver and a sender of YMODEM on standard input and output, as plain as the protocol has
them, into which faults can be planted by name.

usage: faulty_peers.py receiver|sender [FAULT..]
       faulty_peers.py u-boot

The environment variable FILE names what the sender sends.
"""

import os
import select
import subprocess
import sys
import time

sys.dont_write_bytecode = True
sys.path.insert(0, os.path.dirname(os.path.dirname(os.path.abspath(__file__))))

from support.frames import (
    ACK,
    ACK_START,
    CANCEL,
    EOT,
    FRAME_LENGTHS,
    NAK,
    SOH,
    START,
    STX,
    block,
    has_frame,
    header,
    mixed,
)
from support.qemu_words import words_of

U_BOOT = os.environ.get("U_BOOT", "/usr/lib/u-boot/qemu_arm64/u-boot.bin")

# Seconds after which an end acts that hears nothing. `judge` writes late after 4, and waits for an
# answer for 20: half way between them, the machine may stand still for 8 and nothing is otherwise.
QUIET = 12
# Seconds after which what came is a whole delivery: each comes by one call.
WITHIN = 0.1
# Seconds after which "says C late" says C behind its ACK of block 0. U-Boot's `loady` does so after
# 4.25; here the machine may stand still for 5 between the two.
LATE = 8
# Seconds after which "takes its ACK back" does so, where the end block comes after 4.
SOON = 1
# Seconds for which "pauses in each block" does so. A delivery is whole after 0.3 seconds without a
# byte, and after one in the midst of a frame.
PAUSE = 0.5
# What U-Boot says where it gives up.
ABORT = 4 * CANCEL[:1] + 4 * b"\b"
# After so many deliveries without progress it gives up.
GIVE_UP = 10

RECEIVER_FAULTS = {
    "takes a damaged block": "data block 1: damaged",
    "takes a cut block": "data block 1: cut",
    "ignores block numbers": "data block 2: a wrong number",
    "commits at an early EOT": "data block 2: an early EOT in its place",
    "acknowledges silence": "data block 1: lost",
    "acknowledges before it stores, and stores nothing": "plain",
    "drops the last byte": "plain",
    "drops what is after 1A": "a file of 1024 bytes",
    "forgets the length": "plain",
    "forgets empty files": "an empty file",
    "cuts long names": "a name of 124 bytes",
    "never answers a repeat": "data block 1: its answer lost",
    "refuses a repeat": "data block 1: doubled",
    "takes a repeat as new": "data block 1: its answer lost",
    "checks by the other order": "plain",
    "is deaf to CAN CAN": "data block 1: CAN CAN in its place",
    "is cancelled by one CAN": "data block 2: behind one CAN",
    "refuses each EOT": "plain",
    "says no C after block 0": "plain",
    "says C after each block": "plain",
    "is deaf behind a NAK": "data block 1: damaged",
    "cancels at the first bad block": "data block 2: damaged",
    "never answers the end": "plain",
    "answers the end by C": "no file",
    "never asks again": "block 0: lost",
    "takes short blocks alone": "plain",
    "commits at an EOT that is lost": "EOT: lost",
    "takes one file": "two files",
    "says C late": "block 0: C with its ACK",
    "takes its ACK back": "end block: late",
}

SENDER_FAULTS = {
    "numbers from 2": "plain",
    "counts no blocks": "plain",
    "writes the check in the other order": "plain",
    "skips the end block": "plain",
    "doubles the end block": "plain",
    "doubles the EOT": "plain",
    "drops the last byte": "plain",
    "states a length that is cut": "plain",
    "ends a file before its last block": "plain",
    "goes on without an answer": "answer to data block 1: lost",
    "takes any byte for ACK": "answer to data block 1: garbled",
    "takes NAK for ACK": "answer to data block 1: NAK in its place",
    "takes C for ACK": "answer to data block 1: C in its place",
    "takes a NAK of EOT for ACK": "plain",
    "never repeats": "answer to data block 2: NAK in its place",
    "repeats under the next number": "answer to data block 1: as if nothing was heard",
    "is deaf to CAN CAN": "answer to data block 1: CAN CAN in its place",
    "is cancelled by one CAN": "answer to data block 1: behind one CAN",
    "gives up at the first NAK": "answer to data block 1: NAK in its place",
    "answers each C": "answer to start: doubled",
    "needs no C behind block 0": "answer to block 0: cut",
    "states the type in its mode": "block 0: its bytes",
    "adds fields": "block 0: its bytes",
    "has bytes behind the empty name": "end block: its bytes",
    "cuts a length that has no room": "a name of 124 bytes",
}


def heard(seconds, most=4096):
    """What comes within these seconds, until it pauses or is so many bytes: nothing where nothing
    comes."""
    data, wait = b"", seconds
    while len(data) < most and select.select([0], [], [], wait)[0]:
        piece = os.read(0, most - len(data))
        if not piece:
            if not data:
                sys.exit(0)
            break
        data, wait = data + piece, WITHIN
    return data


def say(data):
    while data:
        data = data[os.write(1, data) :]


def turned(frame):
    """A block whose check stands in the other order."""
    return frame[:-2] + frame[-2:][::-1]


class Receiver:
    """A receiver that acknowledges the second EOT of a file."""

    def __init__(self, faults):
        self.faults = faults
        self.files = self.retries = self.count = 0
        self.name, self.length, self.taken, self.has_eot = None, 0, b"", False
        self.is_over = self.is_deaf = self.has_ended = False

    def has(self, fault):
        return fault in self.faults

    def item(self, data):
        """The kind of the delivery, its number and its body."""
        if self.has("checks by the other order") and data[:1] and data[0] in (SOH, STX):
            data = turned(data)
        if self.has("takes short blocks alone") and data[:1] == bytes((STX,)):
            return "bad", 0, b""
        if has_frame(data):
            if data[0] == EOT:
                return "eot", 0, b""
            if data[:2] == CANCEL:
                return "cancel", 0, b""
            return "block", data[1], data[3 : FRAME_LENGTHS[data[0]] - 2]
        if (
            self.has("takes a damaged block")
            and data[:1]
            and FRAME_LENGTHS.get(data[0]) == len(data) > 2
        ):
            return "block", data[1], data[3:-2]
        if self.has("takes a cut block") and len(data) > 3 and data[0] in (SOH, STX):
            return "block", data[1], data[3:]
        if data[:1] == b"\x18" and self.has("is cancelled by one CAN"):
            return "cancel", 0, b""
        return "bad", 0, b""

    def bad(self):
        if self.name is not None and self.has("says no C after block 0"):
            return bytes((NAK,))
        return bytes((START,)) if self.name is None or not self.count else bytes((NAK,))

    def begins(self, body):
        if body[0] == 0:
            if self.has("answers the end by C"):
                return bytes((START,))
            self.is_over = True
            return b"" if self.has("never answers the end") else bytes((ACK,))
        name, rest = body.split(b"\0", 1)
        digits = rest.split(b"\0")[0].split(b" ")[0]
        if not digits.isdigit() or b"/" in name or (self.has("takes one file") and self.files):
            return self.cancels()
        self.name = name[:60] if self.has("cuts long names") else name
        self.length, self.taken, self.count, self.has_eot = int(digits), b"", 0, False
        self.retries = 0
        if self.has("says C late"):
            say(bytes((ACK,)))
            time.sleep(LATE)
            return bytes((START,))
        return bytes((ACK,)) if self.has("says no C after block 0") else ACK_START

    def cancels(self):
        self.is_over = True
        return CANCEL

    def takes(self, number, body):
        wanted = (self.count + 1) % 256
        if self.has("ignores block numbers"):
            number = wanted
        if number == self.count % 256 and self.count:
            if self.has("never answers a repeat"):
                return b""
            if self.has("refuses a repeat"):
                return bytes((NAK,))
            if self.has("takes a repeat as new"):
                self.taken += body
            return bytes((ACK,))
        if number == 0 and not self.count:
            return ACK_START
        if number != wanted:
            return self.cancels()
        self.taken += body
        self.count += 1
        self.retries = 0
        return ACK_START if self.has("says C after each block") else bytes((ACK,))

    def ends(self):
        if self.name is None:
            return ACK_START if self.files else bytes((START,))
        covered = len(self.taken) >= self.length
        if not covered and self.has("commits at an early EOT"):
            self.stores()
            return ACK_START
        if self.has("refuses each EOT") or not covered:
            return bytes((NAK,))
        if not self.has_eot:
            self.has_eot = True
            return bytes((NAK,))
        self.stores()
        return ACK_START

    def stores(self):
        data = self.taken if self.has("forgets the length") else self.taken[: self.length]
        if self.has("drops the last byte"):
            data = data[:-1]
        if self.has("drops what is after 1A"):
            data = data.split(b"\x1a")[0]
        nowhere = self.has("acknowledges before it stores, and stores nothing")
        if not nowhere and (data or not self.has("forgets empty files")):
            with open(self.name, "wb") as it:
                it.write(data)
        self.files += 1
        self.name = None

    def silence(self):
        """What it does where nothing comes."""
        if (
            self.has("commits at an EOT that is lost")
            and self.name
            and len(self.taken) >= self.length
        ):
            self.stores()
            return ACK_START
        if self.has("acknowledges silence") and self.name:
            self.count += 1
            return bytes((ACK,))
        return b"" if self.has("never asks again") else self.bad()

    def takes_back(self):
        """Whether it is behind its last file, whose ACK it takes back."""
        return self.has("takes its ACK back") and self.name is None and self.files > 0

    def answer(self, data):
        # It does so whatever comes: where the machine stood still, that is the end block.
        if self.takes_back():
            self.is_over = True
            return bytes((ACK,)) + ABORT
        kind, number, body = self.item(data)
        self.retries += 1
        if kind == "cancel" and not self.has("is deaf to CAN CAN"):
            self.is_over = True
            return b""
        if self.retries >= GIVE_UP:
            return self.cancels()
        if not data:
            return self.silence()
        if kind == "block" and self.name is None:
            return self.begins(body) if number == 0 else self.cancels()
        if kind == "block":
            return self.takes(number, body)
        if kind == "eot":
            return self.ends()
        if self.has("cancels at the first bad block"):
            return self.cancels()
        self.is_deaf = self.has("is deaf behind a NAK")
        return self.bad()

    def run(self):
        say(bytes((START,)))
        while not self.is_over:
            data = heard(SOON if self.takes_back() else QUIET)
            if not self.is_deaf:
                say(self.answer(data))
        # The end block that comes again is answered again.
        while data := heard(QUIET):
            if has_frame(data) and data[0] in (SOH, STX) and data[3] == 0 and self.is_finished():
                say(bytes((ACK,)))

    def is_finished(self):
        return self.name is None and not self.has("takes its ACK back")


class Sender:
    """A sender of one file."""

    def __init__(self, faults, name, data):
        self.faults = faults
        length = b"%d" % len(data)
        if self.has("drops the last byte"):
            data = data[:-1]
            length = b"%d" % len(data)
        if self.has("states a length that is cut"):
            length = length[:-1]
        bodies = mixed(data)
        if self.has("ends a file before its last block"):
            bodies = bodies[:-1]
        first = 2 if self.has("numbers from 2") else 1
        numbers = [1 if self.has("counts no blocks") else first + at for at in range(len(bodies))]
        blocks = [block(number, body) for number, body in zip(numbers, bodies)]
        if self.has("writes the check in the other order"):
            blocks = [turned(it) for it in blocks]
        eot = bytes((EOT,)) * (2 if self.has("doubles the EOT") else 1)
        end = self.end() * (2 if self.has("doubles the end block") else 1)
        self.frames = [self.first(name, length), *blocks, eot]
        if not self.has("skips the end block"):
            self.frames.append(end)
        self.place, self.is_sent, self.retries = 0, False, 0
        self.is_over = False

    def has(self, fault):
        return fault in self.faults

    def first(self, name, length):
        """Its block 0."""
        fields = length
        if self.has("states the type in its mode"):
            fields += b" 14700000000 100644"
        if self.has("adds fields"):
            fields += b" 14700000000 644 0 1 " + length
        if self.has("cuts a length that has no room"):
            return block(0, (name + b"\0" + fields)[:128].ljust(128, b"\0"))
        return header(name, fields)

    def end(self):
        """Its end block."""
        return header(b"", b"more" if self.has("has bytes behind the empty name") else b"")

    def is_file(self):
        """Whether a block 0 or an EOT is out, behind which it waits for C."""
        return self.place == 0 or self.frames[self.place][0] == EOT

    def acknowledged(self):
        """Goes on. The answer is whether it reads on."""
        self.is_sent = not self.is_file()
        if self.place == 0 and self.has("needs no C behind block 0"):
            self.is_sent = True
        self.place += 1
        self.retries = 0
        if self.place == len(self.frames):
            self.is_over = True
        return not self.is_sent and not self.is_over

    def means(self, byte):
        """What it takes a byte for."""
        if self.has("takes any byte for ACK") and byte not in (NAK, START, 0x18):
            return ACK
        if self.has("takes NAK for ACK") and byte == NAK:
            return ACK
        if self.has("takes C for ACK") and byte == START and self.is_sent:
            return ACK
        if (
            self.has("takes a NAK of EOT for ACK")
            and byte == NAK
            and self.frames[self.place][0] == EOT
        ):
            return ACK
        return byte

    def cancelled(self, data, at):
        if self.has("is deaf to CAN CAN"):
            return False
        return data[at + 1 : at + 2] == b"\x18" or self.has("is cancelled by one CAN")

    def hear(self, data):
        for at, byte in enumerate(data):
            byte = self.means(byte)
            if byte == 0x18 and self.cancelled(data, at):
                self.is_over = True
                return
            if self.is_sent and byte == ACK:
                if not self.acknowledged():
                    return
            elif self.is_sent and byte in (NAK, START):
                self.refused()
                return
            elif not self.is_sent and byte == START:
                self.is_sent = True
                return

    def refused(self):
        self.retries += 1
        if self.has("gives up at the first NAK"):
            say(CANCEL)
            self.is_over = True
        if self.has("repeats under the next number") and 0 < self.place:
            frame = self.frames[self.place]
            if frame[0] != EOT:
                self.frames[self.place] = block(frame[1] + 1, frame[3:-2])

    def writes(self, frame):
        """Writes a frame. To pause in it is no fault."""
        if self.has("pauses in each block") and len(frame) > 1:
            half = len(frame) // 2
            say(frame[:half])
            time.sleep(PAUSE)
            frame = frame[half:]
        say(frame)

    def run(self):
        # One that needs no C goes on behind the ACK, also where the C has come meanwhile.
        most = 1 if self.has("needs no C behind block 0") else 4096
        while not self.is_over:
            is_again = self.retries and self.has("never repeats")
            if self.is_sent and not is_again:
                self.writes(self.frames[self.place])
            data = heard(QUIET, most)
            if self.has("answers each C") and self.place == 0 and data == bytes((START, START)):
                say(self.frames[0])
            if not data and self.is_sent:
                self.retries += 1
                if self.has("goes on without an answer"):
                    self.acknowledged()
            if self.retries >= GIVE_UP:
                say(CANCEL)
                return
            self.hear(data)


def carried(source, board):
    """Carries what comes on standard input to a board's port, and what the board writes back."""
    out = board.stdout.fileno()
    while True:
        for it in select.select([source, out], [], [])[0]:
            data = os.read(it, 4096)
            if not data:
                return
            if it == out:
                say(data)
            else:
                board.stdin.write(data)
                board.stdin.flush()


def seen(board, text):
    """Reads what a board writes up to this text."""
    found = b""
    while text not in found:
        data = os.read(board.stdout.fileno(), 4096)
        if not data:
            sys.exit("the board has ended: %r" % found[-200:])
        found += data


def u_boot():
    """`loady` of U-Boot on a board in QEMU, whose serial port is standard input and output."""
    machine = "qemu-system-aarch64", "-M", "virt", "-cpu", "cortex-a57", "-m", "128"
    words = words_of((*machine, "-bios", U_BOOT), "stdio")
    board = subprocess.Popen(words, stdin=subprocess.PIPE, stdout=subprocess.PIPE, stderr=subprocess.DEVNULL)
    for text, typed in ((b"Hit any key", b"\r"), (b"=> ", b"loady\r"), (b"Ready for binary", b"")):
        seen(board, text)
        board.stdin.write(typed)
        board.stdin.flush()
    carried(0, board)


def main(words):
    kind, *faults = words
    if kind == "u-boot":
        u_boot()
    elif kind == "receiver":
        Receiver(faults).run()
    else:
        name = os.environ["FILE"]
        with open(name, "rb") as it:
            Sender(faults, name.encode(), it.read()).run()


if __name__ == "__main__":
    main(sys.argv[1:])
