"""Tests that need a program which may not be installed."""

import shutil
from unittest import SkipTest

# What says that a test cannot be made here, and why. pytest takes it as its own.
Skipped = SkipTest


def needs(*names):
    """Skips the test where one of these programs is not installed."""
    missing = [name for name in names if not shutil.which(name)]
    if missing:
        raise Skipped("%s: not installed" % ", ".join(missing))
