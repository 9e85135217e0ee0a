"""The order in which tools/libraries.py has the crates of the program proved."""

import json
import os
import sys

from support.cases import sentence
from support.program import ROOT

sys.path.insert(0, os.path.join(ROOT, "tools"))

import libraries


@sentence("a crate is begun ahead of those that stand on it")
def test_behind():
    """The row that begins with a crate is longer than each that begins above it."""
    made = libraries.Libraries("ymodem")
    for name in made.names:
        below = [it for it in made.used[name] if it in made.rows]
        assert all(made.rows[it] > made.rows[name] for it in below), "the crates below %s" % name


def begun(processors):
    """The crates in the order in which they are begun, with the processors that each gets, where the
    one that was begun first always ends first."""
    made = libraries.Libraries("ymodem")
    left, running = sorted(made.names, key=lambda it: -made.rows[it]), []
    while left or running:
        for name, jobs in made.next(left, running, processors):
            left.remove(name)
            running.append((name, jobs))
            yield name, jobs
        assert running, "%r wait for one another" % left
        assert sum(jobs for _, jobs in running) <= processors, "too many: %r" % running
        running.pop(0)


@sentence("the crate of the longest row gets half of the processors")
def test_begun():
    """All crates are begun, on no more processors than there are."""
    made = libraries.Libraries("ymodem")
    for processors in (1, 2, 3, 4, 8):
        found = list(begun(processors))
        first = max(made.rows, key=made.rows.get)
        assert found[0] == (first, max(1, processors // 2)), "the first of %d" % processors
        assert sorted(it for it, _ in found) == sorted(made.names), "those that were begun"
    assert found[-1] == ("ym_command", 8), "the last one, alone"


@sentence("the seconds of crates are of crates that are there")
def test_seconds():
    with open(libraries.SECONDS, encoding="utf-8") as it:
        took = json.load(it)
    assert set(took) <= set(libraries.crates()), "the names"
