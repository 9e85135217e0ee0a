"""Short sessions, and what `ymodem explain` tells of each.

The table `short_sessions` beside this file has each of them on a line behind `==`: its name, and
its pieces in the order in which they passed, two seconds apart, `>` for one of the sender of the
files and `<` for one of the receiver. A piece is hexadecimal digits. `TIMES*DIGITS` in it stands
for digits that come so often, apart by commas. The lines below it are what is told of it. They were
worked out by hand.
"""

import os
import re
import tempfile

from support.cases import case, cases, sentence
from support.explained import explained
from support.program import ROOT

TABLE = os.path.join(ROOT, "tests", "explain", "short_sessions")
# Where a record cannot be read on, what is told of it ends in why.
FAULT = "fault: "
NO_RECORD = re.compile(r".* is no record: (.*); its lines are .*\n")


def digits_of(piece):
    """The digits of a piece, each part as often as it says."""
    parts = (it.rpartition("*") for it in piece.split(","))
    return "".join(int(times or 1) * once for times, _, once in parts)


def record_of(pieces):
    """The record of a session whose pieces came two seconds apart."""
    lines = enumerate(pieces.split())
    return "".join("%d %s %s\n" % (2 * at, it[0], digits_of(it[1:])) for at, it in lines)


def table():
    """The sessions of the table: the name of each, its pieces, and what is told of it."""
    found = []
    with open(TABLE, encoding="ascii") as it:
        for line in it.read().splitlines():
            if line.startswith("== "):
                name, _, pieces = line[3:].partition(":")
                found.append((name, pieces, []))
            else:
                found[-1][2].append(line)
    return found


def told(record):
    """What is told of a record, and behind that why it cannot be read on, if so."""
    with tempfile.TemporaryDirectory() as folder:
        path = os.path.join(folder, "it.record")
        with open(path, "w", encoding="ascii") as it:
            it.write(record)
        ended = explained(path)
    lines = ended.stdout.splitlines()
    if not ended.returncode:
        assert not ended.stderr, "it tells %r" % ended.stderr
        return lines
    why = NO_RECORD.fullmatch(ended.stderr)
    assert why, "status %d: %r" % (ended.returncode, ended.stderr)
    return [*lines, FAULT + why[1]]


@cases(*(case("a short session: " + name, pieces, lines) for name, pieces, lines in table()))
def test_is_told(pieces, lines):
    assert told(record_of(pieces)) == lines


@sentence("the table of short sessions has forty-two of them")
def test_table():
    names = [name for name, _, _ in table()]
    assert len(set(names)) == len(names) == 42, "their names"
