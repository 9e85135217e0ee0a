"""What the ends of a transfer say that they did, beside what is stored.

Whatever happens on the line, these hold: what is stored are the first files of the batch, each
exact; each file that a sender reports done is stored; a receiver reports what is stored, no more
and no less; and no end says that it finished while a file is missing.
"""

import re

from support.program import wants_same


SENDER = re.compile(r"sender done (\d+) ([a-z-]+)\n")
RECEIVER = re.compile(r"((?:file .+\n)*)receiver files (\d+) ([a-z-]+(?: [a-z-]+)?)\n")


class Claim:
    """What one end says: whether it has finished, how many files it tells as done or stored, or
    None where it tells no number, and whether that is just the number that is stored."""

    def __init__(self, who, is_finished, count=None, is_exact=False):
        self.who, self.is_finished, self.count, self.is_exact = who, is_finished, count, is_exact


def claim_of_send(ending):
    told = SENDER.fullmatch(ending.out)
    assert told, "send told %r (%r)" % (ending.out, ending.err)
    assert (told[2] == "finished") == (
        ending.status == 0
    ), "send ended with status %d, and told %r" % (ending.status, ending.out)
    return Claim(
        "send, which told %r %r," % (ending.out, ending.err), ending.status == 0, int(told[1])
    )


def claim_of_receive(ending, files):
    told = RECEIVER.fullmatch(ending.out)
    assert told, "receive told %r (%r)" % (ending.out, ending.err)
    assert (told[3] == "finished") == (
        ending.status == 0
    ), "receive ended with status %d, and told %r" % (ending.status, ending.out)
    lines = told[1].splitlines()
    for line, (name, data) in zip(lines, files):
        assert line.startswith(
            "file %s %d " % (name, len(data))
        ), "receive told %r of %r, which has %d bytes" % (line, name, len(data))
    assert len(lines) == int(told[2]), "receive told %d files and %r" % (len(lines), ending.out)
    return Claim(
        "receive, which told %r %r," % (ending.out[len(told[1]) :], ending.err),
        ending.status == 0,
        int(told[2]),
        True,
    )


def wants_true(files, kept, claims, wants_finished=False):
    """Fails where what the ends claim of a batch is not so, with these files kept, and, if that is
    wanted, where one of them has not finished."""
    count = len(kept)
    wants_same(kept, dict(files[:count]))
    for claim in claims:
        assert not claim.is_finished or count >= len(
            files
        ), "%s finished, and %d of %d files are kept" % (claim.who, count, len(files))
        assert (
            claim.count is None or claim.count <= count
        ), "%s claims %d files, and %d are kept" % (claim.who, claim.count, count)
        assert not claim.is_exact or claim.count == count, "%s claims %d files, and %d are kept" % (
            claim.who,
            claim.count,
            count,
        )
        assert (
            not wants_finished or claim.is_finished
        ), "%s did not finish; %d of %d files are kept; they are %s" % (
            claim.who,
            count,
            len(files),
            " and ".join(it.who for it in claims),
        )
