"""How many runs of `rt ci` prove the program."""

import os
import sys
from unittest import mock

from support.cases import sentence
from support.program import ROOT

sys.path.insert(0, os.path.join(ROOT, "tools"))

import prove


@sentence("two runs where there are processors and memory for both")
def test_two_runs():
    """One run keeps two processors busy. The memory that is wanted of each is a byte here, and then
    more than a machine has."""
    for processors, wanted, holds in ((1, 1, False), (2, 1, False), (3, 1, True), (4, 10**15, False)):
        with mock.patch("os.sched_getaffinity", lambda _, of=processors: set(range(of))):
            with mock.patch.object(prove, "HOLDS_TWO", wanted):
                assert prove.holds_two_runs() == holds, "%d, %d bytes each" % (processors, wanted)
