"""U-Boot's `loady` on the boards of Debian's u-boot-qemu: its prompt, and whether a file is
there."""

import contextlib
import os
import zlib

from support.qemu import QEMU, board
from support.skipping import Skipped


ROOT = "/usr/lib/u-boot"
PROMPT = rb"\n=> "


class Board:
    """A board: U-Boot's folder, and its file there, the place in memory that files are loaded to,
    and the words that start it."""

    def __init__(self, name, at, *machine, image="u-boot.bin", memory="256M"):
        self.name, self.at, self.machine, self.memory = name, at, machine, memory
        self.image = os.path.join(ROOT, name, image)

    @contextlib.contextmanager
    def started(self):
        """Its serial port, at U-Boot's prompt."""
        if not os.path.exists(self.image):
            raise Skipped("U-Boot: there is no %s" % self.image)
        with board("-bios", self.image, memory=self.memory, machine=self.machine) as (port, _):
            port.sees(rb"Hit any key to stop autoboot")
            port.type(b"\r")
            port.sees(PROMPT)
            yield port

    def ready(self, port, data):
        """U-Boot waits for a file: where what it says of that begins."""
        typed(port, "mw.b %x 55 %x" % (self.at, len(data)), PROMPT)
        said = rb"## Ready for binary \(ymodem\) download to 0x%08X at \d+ bps[.]{3}\r?\n" % self.at
        return typed(port, "loady %x" % self.at, said).end()

    def wants_loaded(self, port, data, start):
        """The file is there: its length and its CRC-32, as the prompt tells them."""
        total = port.sees(rb"## Total Size\s+= 0x([0-9a-f]+) = (\d+) Bytes.*" + PROMPT, start)
        assert int(total[1], 16) == len(data) and int(total[2]) == len(
            data
        ), "it got %s bytes of %d" % (total[2].decode(), len(data))
        sum_of = "crc32 %x %x" % (self.at, len(data))
        summed = typed(port, sum_of, rb"==> ([0-9a-f]{8})\r?" + PROMPT)
        if int(summed[1], 16) != zlib.crc32(data):
            told = summed[1].decode(), zlib.crc32(data)
            raise AssertionError("its CRC-32 is %s, wanted %08x" % told)


def typed(port, text, answer):
    """Types a line at the prompt, waits for what U-Boot says to it, and gives the match."""
    start = len(port.said)
    port.type(text.encode() + b"\r")
    return port.sees(answer, start)


# At many of its starts U-Boot for x86 takes the ticks of the host's clock for those of one of 1 GHz,
# and its waits are too short by that. QEMU has such a clock where it counts instructions.
GIGAHERTZ = ("-icount", "shift=auto")
ARM64 = Board("qemu_arm64", 0x42000000, QEMU, "-M", "virt", "-cpu", "cortex-a57")
ARM64.image = os.environ.get("U_BOOT", ARM64.image)
# Those that have `loady`. Beside qemu-system-arm they need qemu-system-misc, -x86 and -ppc.
BOARDS = (
    ARM64,
    Board("qemu_arm", 0x42000000, "qemu-system-arm", "-M", "virt", "-cpu", "cortex-a15"),
    Board("qemu-riscv64", 0x84000000, "qemu-system-riscv64", "-M", "virt"),
    Board("qemu-x86_64", 0x2000000, "qemu-system-x86_64", *GIGAHERTZ, image="u-boot.rom"),
    Board("qemu-x86", 0x2000000, "qemu-system-i386", *GIGAHERTZ, image="u-boot.rom"),
    Board("qemu-ppce500", 0x2000000, "qemu-system-ppc", "-M", "ppce500", image="uboot.elf"),
)
