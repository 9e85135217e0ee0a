"""The library for C as files for every processor, and where they cannot be had."""

import os

from support.program import ROOT
from support.skipping import needs


PORTABLE = os.path.join(ROOT, "out", "portable")
PORTABLE = os.path.abspath(os.environ.get("YM_PORTABLE", PORTABLE))
SOURCE, HEADER, IO = (os.path.join(PORTABLE, it) for it in ("ymodem.c", "ymodem.h", "ymodem_io.h"))


def needs_portable():
    """Skips a check where the files are not made, since what they are made by is not installed."""
    if not os.path.isfile(SOURCE):
        needs("wasm-opt", "wasm2c")
