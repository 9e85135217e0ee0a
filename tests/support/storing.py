"""Files that are sent to `receive` without a wait, and what a folder may hold when a transfer was
cut off."""

import os
import threading
import time

from support.peers import PlainSender
from support.program import LIMIT, connected, file_lines, free_port, running, stored


PART = ".part"

# The most bytes that a name has on usual file systems.
NAME_LIMIT = 255


def part_of(name):
    """The name of the part of a file: cut at a character where it would be too long."""
    return name.encode()[: NAME_LIMIT - len(PART)].decode(errors="ignore") + PART


class Meanwhile:
    """Does something once, before the frame of this number."""

    def __init__(self, at, do):
        self.at, self.do = at, do

    def stand(self, at, _):
        if at == self.at:
            self.at = None
            self.do()


class EagerSender(PlainSender):
    """Writes its first frame before it is asked. It knows how long a round took at most, in
    seconds."""

    is_called = False
    longest_round = 0.0

    def wait_for_start(self, end):
        if self.is_called:
            super().wait_for_start(end)
        self.is_called = True
        self.heard = time.monotonic()

    def reply(self, end):
        byte = super().reply(end)
        now = time.monotonic()
        self.longest_round, self.heard = max(self.longest_round, now - self.heard), now
        return byte


# The longest round of the transfers of a check, which runs in one thread.
ROUNDS = threading.local()

# A receiver asks again after 3 seconds, and such a sender takes the answer to one copy for that to
# another.
LONGEST_ROUND = 1.0
TRIES = 5


def steadily(check):
    """The check, made again where it failed and the machine stretched a round: that shows
    nothing."""

    def steady(**given):
        for left in reversed(range(TRIES)):
            ROUNDS.longest = 0.0
            try:
                return check(**given)
            except AssertionError:
                if not left or ROUNDS.longest < LONGEST_ROUND:
                    raise

    return steady


def received(files, folder, flags=(), before=(), meanwhile=None):
    """Sends files to `receive`, and answers how it has ended, and how many files it
    acknowledged."""
    sender = EagerSender(files, meanwhile)
    port = free_port()
    with running("receive", "--port", port, *flags, folder, before=before) as receive:
        with connected(port, receive) as end:
            end.settimeout(LIMIT)
            sender.run(end)
        ROUNDS.longest = max(getattr(ROUNDS, "longest", 0.0), sender.longest_round)
        return receive.ended(), sender


def told(files):
    """What `receive` prints of these files."""
    return file_lines(files) + "receiver files %d finished\n" % len(files)


def refused(count, files):
    """What it prints where it has stored so many of them, and its folder fails then."""
    return file_lines(files[:count]) + "receiver files %d sink-failed\n" % count


def wants_whole_front(found, files, most_parts=1):
    """Fails where what was found is no front of the batch, each file whole, with a number of parts
    at most, each the front of its file; answers how many files there are, and the names of the
    parts."""
    wanted, parts_of = dict(files), {part_of(name): name for name, _ in files}
    parts = [name for name in found if name not in wanted]
    for name in parts:
        assert name in parts_of, "%r was left behind" % name
        assert wanted[parts_of[name]].startswith(found[name]), "%r is no front of its file" % name
    assert len(parts) <= most_parts, "these parts were left behind: %s" % ", ".join(sorted(parts))
    names = [name for name in found if name in wanted]
    assert set(names) == {
        name for name, _ in files[: len(names)]
    }, "these files are no front of the batch: %s" % ", ".join(sorted(names))
    for name in names:
        assert found[name] == wanted[name], "%r differs: %d bytes, wanted %d" % (
            name,
            len(found[name]),
            len(wanted[name]),
        )
    return len(names), parts


def comes_again(files, folder):
    """Takes the files of the batch out of the folder, but leaves the parts, and sends the batch
    again: all of it is stored, and nothing else."""
    for name, _ in files:
        if os.path.exists(os.path.join(folder, name)):
            os.unlink(os.path.join(folder, name))
    again, _ = received(files, folder, ["--discard-parts"])
    again.wants(0, told(files))
    found = stored(folder)
    assert found == dict(files), "sent again, it came to %s" % ", ".join(
        "%r of %d bytes" % (name, len(data)) for name, data in found.items()
    )
