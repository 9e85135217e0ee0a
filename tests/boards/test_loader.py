"""The loader of examples/bare, a program for a board of 64-bit ARM without a C library, in QEMU: it
receives files over its serial port from `ymodem send` and `sb`, also on a line that damages bytes,
tells the CRC-32 of each, and goes on at the first, which prints a line.
"""

import os
import random
import tempfile
import threading
import zlib

from support.cases import case, cases, sentence
from support.commands import command
from support.program import LIMIT, ROOT, write_files
from support.qemu import board, from_lrzsz, from_program
from support.relay import Seeded
from support.skipping import needs


EXAMPLE = os.path.join(ROOT, "examples", "bare")
LIBRARY = os.path.abspath(
    os.environ.get(
        "YM_LIBRARY_ARM",
        os.path.join(ROOT, "out", "lib", "aarch64-unknown-linux-gnu", "libymodem.a"),
    )
)
BUILT = tempfile.TemporaryDirectory(prefix="ymodem-bare-")
READY = rb"loader: send files by YMODEM\r\n"
ROOM = 0x41000000

COMPILERS = {
    "gcc": ("aarch64-linux-gnu-gcc", "aarch64-linux-gnu-ld", "aarch64-linux-gnu-objcopy"),
    "clang": ("clang --target=aarch64-none-elf", "ld.lld", "llvm-objcopy"),
}


class Images:
    """The loader and the program that it loads, by one compiler, made once."""

    def __init__(self, name):
        self.words, self.out = COMPILERS[name], os.path.join(BUILT.name, name)
        self.lock = threading.Lock()

    def __call__(self, name):
        needs(*(it.split()[0] for it in self.words), "make")
        with self.lock:
            if not os.path.exists(self.out):
                # By its way from there, in which no space stands: make takes no name with one.
                library = os.path.relpath(LIBRARY, EXAMPLE)
                said = command(
                    "make",
                    "-C",
                    EXAMPLE,
                    "OUT=" + self.out,
                    "LIBRARY=" + library,
                    *("%s=%s" % it for it in zip(("CC", "LINK", "COPY"), self.words))
                )
                assert "warning" not in said, said
        return os.path.join(self.out, name)

    def assembled(self, source, name):
        """A program to load, of a file of assembly."""
        self("loader.elf")
        compiler, _, copy = self.words
        made = os.path.join(self.out, name)
        command(*compiler.split(), "-c", source, "-o", made + ".o")
        command(copy, "-O", "binary", "-j", ".text", made + ".o", made)
        with open(made, "rb") as it:
            return it.read()


GCC, CLANG = Images("gcc"), Images("clang")


def batch(images):
    """The program, and files of the sizes at which blocks end."""
    chance = random.Random(61)
    with open(images("hello.bin"), "rb") as it:
        hello = it.read()
    sizes = (0, 1, 127, 128, 129, 1023, 1024, 1025, 3000, 70001)
    return [
        ("hello.bin", hello),
        *(("size-%d.bin" % size, chance.randbytes(size)) for size in sizes),
        ("two words.txt", b"\x1a" * 200),
        ("n" * 100, b"\x18\x18\x04" * 100),
    ]


def told(files):
    """What the loader has to say of these files: each stands at the next multiple of 64 KiB."""
    at, lines = ROOM, []
    for name, data in files:
        lines.append(
            "%s: %d bytes at %08x, CRC-32 %08x\r\n" % (name, len(data), at, zlib.crc32(data))
        )
        at += (len(data) + 0xFFFF) // 0x10000 * 0x10000
    return "".join(lines).encode()


def wants_loaded(port, child, files, start=0):
    """The loader tells the files, the program its line, and the board turns itself off."""
    found = port.sees(
        (
            rb"loader: the stack was used to (\d+) bytes; going on at 41000000\r\n(.*)hello: this"
            rb" program came by YMODEM\r\n"
        ),
        start,
    )
    child.wait(LIMIT)
    assert told(files) in port.said[start:], "it tells %r" % port.said[start:]
    assert not found[2], "it says %r" % found[2]
    assert int(found[1]) < 4096, "the stack was used to %s bytes" % found[1].decode()


def from_sb(*words):
    return lambda paths: from_lrzsz(*words, *paths)


def from_damaged(seed):
    return lambda paths: from_program(paths, Seeded(seed, 0.2, 5))


@cases(
    case("the loader by gcc: from ymodem send", GCC, from_program),
    case("the loader by gcc: from ymodem send, five deliveries damaged", GCC, from_damaged(51)),
    case(
        "the loader by gcc: from ymodem send, other five deliveries damaged", GCC, from_damaged(52)
    ),
    case("the loader by gcc: from sb -k", GCC, from_sb("-k")),
    case("the loader by gcc: from sb", GCC, from_sb()),
    case("the loader by clang: from ymodem send", CLANG, from_program),
    case("the loader by clang: from ymodem send, five deliveries damaged", CLANG, from_damaged(53)),
)
def test_loads(images, send):
    """A batch from what sends it, given the paths."""
    files = batch(images)
    with tempfile.TemporaryDirectory(prefix="ymodem-") as here, board(
        "-kernel", images("loader.elf")
    ) as (port, child):
        paths = write_files(here, files)
        port.sees(READY)
        send(paths)(port)
        wants_loaded(port, child, files)


@sentence("a file for which there is no room, and then the next batch")
def test_refuses_what_has_no_room():
    """A file that is longer than the memory is refused before its first byte, and then the loader
    takes the next batch."""
    files = batch(GCC)
    with tempfile.TemporaryDirectory(prefix="ymodem-") as here, board(
        "-kernel", GCC("loader.elf")
    ) as (port, child):
        large = os.path.join(here, "large.bin")
        with open(large, "wb") as it:
            it.truncate(0x44000000 - ROOM + 1)
        port.sees(READY)
        from_program([large], status=1, told="sender done 0 cancelled\n")(port)
        again = port.sees(rb"not received: a file failed\r\n" + READY).end()
        from_program(write_files(here, files))(port)
        wants_loaded(port, child, files, again)


@sentence("a program that traps")
def test_tells_a_trap():
    """A program that begins with no instruction is told, with where that was."""
    with tempfile.TemporaryDirectory(prefix="ymodem-") as here, board(
        "-kernel", GCC("loader.elf")
    ) as (port, _):
        port.sees(READY)
        from_program(write_files(here, [("none.bin", bytes(64))]))(port)
        port.sees(
            rb"going on at 41000000\r\ntrap: ESR 02000000, ELR 0000000041000000, FAR"
            rb" [0-9a-f]{16}\r\n"
        )


@sentence("how the loader leaves the processor")
def test_leaves_the_processor():
    """The MMU and the caches are on, an access need not be aligned, FP and SIMD are on, and the
    memory is mapped as normal memory."""
    probe = GCC.assembled(os.path.join(ROOT, "tests", "boards", "probe.S"), "probe.bin")
    with tempfile.TemporaryDirectory(prefix="ymodem-") as here, board(
        "-kernel", GCC("loader.elf")
    ) as (port, child):
        port.sees(READY)
        from_program(write_files(here, [("probe.bin", probe)]))(port)
        found = port.sees(
            rb"at 41000000\r\n([0-9a-f]{16}) ([0-9a-f]{16}) ([0-9a-f]{16}) ([0-9a-f]{16})"
            rb" probed\r\n"
        )
        control, access, mapped, vector = (int(it, 16) for it in found.groups())
        child.wait(LIMIT)
        assert control & 0x1007 == 0x1005, "SCTLR %x" % control
        assert access >> 20 & 3 == 3, "CPACR %x" % access
        assert mapped >> 56 == 0xFF and mapped >> 7 & 3 == 3 and not mapped & 1, "PAR %x" % mapped
        assert vector == 0x0707070707070707, "read at an odd address: %x" % vector
