"""The programs of examples/boards on boards of QEMU."""

import contextlib
import os
import random
import tempfile
import threading
import zlib

from support.commands import command
from support.one_end import receiving
from support.portable import PORTABLE, needs_portable
from support.program import LIMIT, ROOT, connected
from support.qemu import turned_on
from support.relay import at_once
from support.skipping import needs


ARCHIVE = os.path.abspath(
    os.environ.get(
        "YM_LIBRARY_ARM",
        os.path.join(ROOT, "out", "lib", "aarch64-unknown-linux-gnu", "libymodem.a"),
    )
)
BUILT = tempfile.TemporaryDirectory(prefix="ymodem-boards-")
READY = rb"send files by YMODEM\r\n"
AGAIN = rb"the stack was used to (\d+) bytes; now receive them by YMODEM\r\n"
SENT = rb"\r\nsending: ([^;]*); the stack was used to (\d+) bytes; the end\r\n"
SUMMED = (
    rb"\r\n([^\r\n]*): files (\d+), CRC-32 ([0-9a-f]{8}); the stack was used to (\d+) bytes\r\n"
)
GAP = 0x10000


# The sections of what cannot be written, and of what can, without the stack.
CONSTANT, WRITTEN = (".text", ".rodata"), (".data", ".bss")


class Board:
    """A board: the folder of its programs, what makes and what runs them, and where files stand."""

    def __init__(self, folder, compiler, machine, room):
        self.folder, self.compiler, self.room = folder, compiler, room
        self.machine = machine.split()
        self.lock = threading.Lock()

    def program(self, name):
        """A program of the board, made once."""
        self.needs_library()
        needs(self.machine[0], self.compiler, "make")
        out = os.path.join(BUILT.name, self.folder)
        with self.lock:
            how = ["make", "-C", os.path.join(ROOT, "examples", self.folder), "OUT=" + out]
            said = command(*how, "LIBRARY=" + self.library(), os.path.join(out, name))
            assert "warning" not in said, said
        return os.path.join(out, name)

    def library(self):
        """By its way from there, in which no space stands: make takes no name with one."""
        path = ARCHIVE if self.is_of_archive() else PORTABLE
        return os.path.relpath(path, os.path.join(ROOT, "examples", self.folder))

    def is_of_archive(self):
        return self.folder == "bare"

    def needs_library(self):
        if not self.is_of_archive():
            needs_portable()

    def sizes(self, name):
        """The text of a program, and its data with all that begins at 0, without the stack."""
        made = self.program(name)
        tool = self.compiler.removesuffix("gcc") + "size"
        needs(tool)
        rows = [it.split() for it in command(tool, "-A", "-d", made).splitlines()]
        found = {it[0]: int(it[1]) for it in rows if len(it) == 3 and it[0].startswith(".")}
        sums = [sum(found.get(it, 0) for it in parts) for parts in (CONSTANT, WRITTEN)]
        return tuple(sums)

    def turned_on(self, name, *words):
        return turned_on(*self.machine, *words, "-kernel", self.program(name))

    def told(self, batch):
        """What the board has to say of these files: each stands at the next multiple of a gap."""
        line = "%s: %d bytes at %08x, CRC-32 %08x\r\n"
        at, lines = self.room, []
        for name, data in batch:
            lines.append(line % (name, len(data), at, zlib.crc32(data)))
            at += (len(data) + GAP - 1) // GAP * GAP
        return "".join(lines).encode()


M3 = Board("cortex-m", "arm-none-eabi-gcc", "qemu-system-arm -M mps2-an385", 0x21000000)
RISCV_RUNS = "qemu-system-riscv32 -M virt -m 64M -bios none"
RISCV = Board("riscv", "riscv64-unknown-elf-gcc", RISCV_RUNS, 0x81000000)
ARM_RUNS = "qemu-system-aarch64 -M virt -cpu cortex-a53 -m 64M"
ARM = Board("bare", "aarch64-linux-gnu-gcc", ARM_RUNS, 0x41000000)
BOARDS = {"Cortex-M3": M3, "RISC-V, 32 bits": RISCV, "ARM, 64 bits": ARM}


def files():
    chance = random.Random(71)
    sizes = (0, 1, 127, 128, 129, 1023, 1024, 1025, 3000, 70001)
    named = [("size-%d.bin" % size, chance.randbytes(size)) for size in sizes]
    return [*named, ("two words.txt", b"\x1a" * 200), ("n" * 100, b"\x18\x18\x04" * 100)]


def few():
    """A batch for lines on which each bad delivery costs seconds."""
    return [it for it in files() if len(it[1]) in (0, 1, 3000, 300)]


# ---- What the board sends


def joined(port, end):
    """Hands on what the board and its peer write, until the peer closes. What the board says behind
    the batch may be left unread."""
    end.settimeout(None)
    with contextlib.suppress(ConnectionResetError):
        port.carry(end)


def dropped(end, asked):
    """Takes so many questions, which nobody hears."""
    end.settimeout(LIMIT)
    said = b""
    while len(said) < asked:
        came = end.recv(asked - len(said))
        assert came, "it closes behind %r" % said
        said += came
    assert said == b"C" * asked, "it asks %r" % said


def to_program(line=None, asked=0):
    """To `ymodem receive`, whose first questions are lost."""

    def receives(port, there, batch):
        with receiving(there, line) as (child, number):
            end = connected(number, child)
            at_once(end)
            dropped(end, asked)
            joined(port, end)
            ended = child.ended()
            last = "receiver files %d finished\n" % len(batch)
            assert ended.out.endswith(last), ended.out + ended.err

    return receives


def summed(port, batch):
    """What a receiver alone has heard: the deepest stack."""
    found = port.sees(SUMMED)
    sums = zlib.crc32(b"".join(name.encode() + data for name, data in batch))
    told = found[0].decode()
    assert found[1] == b"done" and int(found[2]) == len(batch), told
    assert int(found[3], 16) == sums, told
    return int(found[4])
