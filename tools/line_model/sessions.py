"""One session on a line, and whether what its ends say is true."""

import random
from dataclasses import dataclass

import peers
from ends import Receiver, Sender
from line import SECOND, Line, Sleep, Way
from rule import Back, Still, Timed
from today import Clearing, Plain

RULES = {"plain": Plain, "today": Clearing, "rule": Timed, "still": Still, "back": Back}


def files_of(seed, sizes=(1, 300, 3000, 9000, 20000)):
    chance = random.Random(seed)
    return [("f%d" % k, chance.randbytes(size)) for k, size in enumerate(sizes)]


class Stalling:
    """A port whose end stalls before some of its writes, as one that is stopped does."""

    def __init__(self, port, stalls):
        self.port, self.stalls, self.count = port, stalls, 0

    def read(self, wait, room):
        return (yield from self.port.read(wait, room))

    def write(self, data):
        self.count += 1
        if self.count in self.stalls:
            yield Sleep(self.stalls[self.count])
        yield from self.port.write(data)


@dataclass
class Told:
    """What became of a session."""

    seconds: float
    sender: tuple
    receiver: tuple
    is_whole: bool
    is_true: bool

    def mark(self):
        part, false = "" if self.is_whole else "part ", "" if self.is_true else "FALSE "
        return "%s%s%d" % (part, false, self.seconds)


def started(program, wait):
    if wait:
        yield Sleep(wait)
    return (yield from program)


def judge(files, near, far, seconds, is_ours):
    """A report is true where the files that an end counts are stored, and whole.

    Where all is finished, the other end has to say so too.
    """
    outcome, done = near or ("", 0)
    ended, stored = far or ("", [])
    says_all = outcome == "finished"
    is_true = stored[:done] == files[:done] and not (is_ours and stored != files[: len(stored)])
    if says_all:
        is_true = is_true and stored == files and (is_ours or ended == "finished")
    is_whole = says_all and stored == files and done == len(files)
    return Told(seconds / SECOND, near, far, is_whole, is_true)


def session(
    seed,
    sender="rule",
    receiver="rule",
    files=None,
    there=None,
    back=None,
    echoes=(None, None),
    late=(0, 0),
    stalls=({}, {}),
    twice=True,
    log=None,
    flips=(),
    counts=(True, True),
):
    """Runs one session; an end is the name of a rule for our own engine, or of a peer."""
    files = files_of(seed) if files is None else files
    line = Line(seed, there or Way(), back or Way(), echoes, log, flips)
    line.counts = counts
    if sender == "sb":
        near = peers.sb(files)
    else:
        near = Sender(files).run(Stalling(RULES[sender]("sender", line), stalls[0]))
    if receiver in ("rb", "uboot"):
        far = getattr(peers, receiver)()
    else:
        port = Stalling(RULES[receiver]("receiver", line), stalls[1])
        far = Receiver(twice, minds=receiver not in ("plain", "today")).run(port)
    (near, far), at = line.run(started(near, late[0]), started(far, late[1]))
    return judge(files, near, far, at, receiver not in ("rb", "uboot"))
