"""Batches of files that are sent."""

import random


ASKED = (0, 1, 2, 4, 6, 9)

CHANCE = random.Random(10)
SINGLE = (("", []), (", --single", ["--single"]))

# A batch may begin with an empty file, with a file of one block, or with a long one.
EMPTY_FIRST = [("a", b""), ("b", CHANCE.randbytes(700)), ("c", CHANCE.randbytes(2304)), ("d", b"")]
BATCHES = (
    ("an empty file first", EMPTY_FIRST),
    (
        "a file of one block first",
        [("one", CHANCE.randbytes(100)), ("none", b""), ("more", CHANCE.randbytes(1300))],
    ),
    (
        "a long file first",
        [("long", CHANCE.randbytes(5000)), ("none", b""), ("one", CHANCE.randbytes(128))],
    ),
)


SIZES = (
    0,
    1,
    2,
    127,
    128,
    129,
    255,
    256,
    257,
    895,
    896,
    1023,
    1024,
    1025,
    1151,
    1152,
    1153,
    2047,
    2048,
    2049,
)
ODD_SIZES = (3000, 3001, 9999, 32767, 32768, 33333, 70001)


def thirty_files():
    """Files of all the sizes at which something changes, with names and bytes of all kinds."""
    chance = random.Random(1988)
    files = [("size-%d.bin" % size, chance.randbytes(size)) for size in SIZES + ODD_SIZES]
    files.insert(5, ("Größe und Öl, 2 Wörter.txt", b"\x1a" * 300))
    files.insert(11, ("n" * 250, b"\x18\x18\x04\x06\x15\x43" * 400 + b"\x1a"))
    files.insert(17, ("one-MiB", chance.randbytes(1 << 20)))
    assert len(files) == 30
    return files


def few_files():
    """Three files of more than one block each."""
    chance = random.Random(7)
    return [
        (name, chance.randbytes(size))
        for name, size in (("first", 3000), ("second", 5000), ("third", 1))
    ]
