"""Files by `ymodem send` to U-Boot's own `loady`, in QEMU: the CRC-32 that U-Boot's prompt tells of
each.
"""

import random
import tempfile

from support.cases import case, cases, sentence
from support.flips import BadEnd, Flips, recovers
from support.one_end import sending
from support.program import write_files
from support.qemu import from_program
from support.relay import Seeded
from support.uboot_boards import ARM64, PROMPT


def load(port, data, line=None, name="image.bin"):
    """Sends a file to `loady`, and compares its length and its CRC-32."""
    start = ARM64.ready(port, data)
    with tempfile.TemporaryDirectory(prefix="ymodem-") as here:
        from_program(write_files(here, [(name, data)]), line)(port)
    ARM64.wants_loaded(port, data, start)


@cases(
    *(
        case("loady from ymodem send: %d bytes, and %d" % pair, pair)
        for pair in ((1, 1024), (127, 1025), (128, 3000), (129, 1023))
    ),
    case("loady from ymodem send: 300,001 bytes", (300001,)),
    case(
        "loady from ymodem send: 40,000 bytes, two deliveries damaged", (40000,), Seeded(73, 0.2, 2)
    )
)
def test_takes(sizes, line=None):
    """One U-Boot takes a file of each size, one after another."""
    chance = random.Random(71)
    with ARM64.started() as port:
        for size in sizes:
            load(port, chance.randbytes(size), line)


@cases(
    *(
        case("loady from ymodem send: five bits flipped near the start, seed %d" % seed, seed)
        for seed in (1, 2, 7)
    )
)
def test_across_damage(seed):
    """It is there whole, or the sender does not say that it has finished."""
    data = random.Random(seed).randbytes(20000)
    with ARM64.started() as port, tempfile.TemporaryDirectory(prefix="ymodem-") as here:
        start = ARM64.ready(port, data)
        with sending(write_files(here, [("image.bin", data)]), Flips(seed)) as (sender, called):
            port.carry(called())
            ran = sender.ended()
        if ran.status == 0 or "finished" in ran.out:
            ARM64.wants_loaded(port, data, start)


@sentence("loady from ymodem send: it cancels behind the ACK of a damaged end block, and is believed")
def test_takes_its_ack_back():
    """U-Boot acknowledges whatever comes there, and tells its user of no file where it was damaged:
    `send` does not say that it has finished."""
    data = random.Random(9).randbytes(3000)
    with ARM64.started() as port, tempfile.TemporaryDirectory(prefix="ymodem-") as here:
        start = ARM64.ready(port, data)
        with sending(write_files(here, [("image.bin", data)]), BadEnd()) as (sender, called):
            port.carry(called())
            ran = sender.ended()
        assert ran.status == 1 and ran.out == "sender done 1 cancelled\n", (ran.status, ran.out)
        port.sees(rb"\x06\x18\x18.*" + PROMPT, start)


@sentence("loady from ymodem send: at full speed behind a damaged block")
def test_behind_a_damaged_block():
    recovers(ARM64)
