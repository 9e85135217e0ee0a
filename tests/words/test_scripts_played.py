r"""Scripts, and what `ymodem play` makes of each.

The table `scripts` beside this file has each script on a line, behind a sign, and in the lines
below it what was worked out by hand of what comes of it:

- of `!` the status, and what is printed and told;
- of `$` the status, the number of rounds, and what stands behind these;
- of `?`, on its own line, that it is read, or why it is not.

In a script `\n`, `\r`, `\t`, `\s` and `\x` stand for the end of a line, a return, a tab, a space
and the byte FF, and `{N*TEXT}` for N times the text.
"""

import os
import re

from support.cases import case, cases, sentence
from support.program import ROOT, run

TABLE = os.path.join(ROOT, "tests", "words", "scripts")
LETTERS = {"n": "\n", "r": "\r", "t": "\t", "s": " ", "x": "\xff"}
# A script that is read, with what is told of that.
READ = re.compile(r"\? (.*): (read|line \d+: .*)")


def script_of(text):
    """The bytes of the script that the table writes so."""
    text = re.sub(r"\{(\d+)\*(.*?)\}", lambda it: int(it[1]) * it[2], text)
    return re.sub(r"\\(.)", lambda it: LETTERS[it[1]], text).encode("latin-1")


def table():
    """The lines of the table that have a script, each with those that stand below it."""
    found = []
    with open(TABLE, encoding="ascii") as it:
        for line in it.read().splitlines():
            if line.startswith(("! ", "$ ", "? ")):
                found.append((line, []))
            else:
                found[-1][1].append(line)
    return found


def played(text):
    return run("play", given=script_of(text))


def chosen(sign):
    """A case for each script behind this sign."""
    words = {"!": "a script that is played", "$": "a long script", "?": "a script that is read"}
    some = [it for it in table() if it[0].startswith(sign)]
    return [case("%s: %d" % (words[sign], at), *it) for at, it in enumerate(some, 1)]


@cases(*chosen("!"))
def test_played(line, wanted):
    ended = played(line[2:])
    printed = (ended.out + ended.err).splitlines()
    assert [str(ended.status), *printed] == wanted, line
    assert not (ended.out and ended.err), "%s: it prints %r, and tells %r" % (
        line,
        ended.out,
        ended.err,
    )


@cases(*chosen("$"))
def test_long(line, wanted):
    ended = played(line[2:])
    printed = ended.out.splitlines()
    rounds = [it for it in printed if " > " in it]
    told = [str(ended.status), "%d rounds" % len(rounds), *printed[len(rounds) :]]
    assert (told, ended.err) == (wanted, ""), line


@cases(*chosen("?"))
def test_read(line, wanted):
    """One that is read is played, and so something is printed."""
    script, why = READ.fullmatch(line).groups()
    ended = played(script)
    if why == "read":
        assert (ended.status in (0, 1), bool(ended.out), ended.err) == (True, True, ""), line
    else:
        assert (ended.status, ended.out, ended.err) == (2, "", why + "\n"), line
    assert not wanted, "%s: lines below it" % line


@sentence("the table of scripts has a hundred of them")
def test_table():
    signs = [line[0] for line, _ in table()]
    assert [signs.count(it) for it in "!$?"] == [42, 2, 56], "how many of each sign"
