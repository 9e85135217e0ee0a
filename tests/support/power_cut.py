"""A model of a disk that loses power, and the recorded calls of `receive` played on it.

What a call did is on the disk for certain only behind a force: the bytes of a file when that file
was forced out behind them, the names of a folder when the folder was. Of everything else a power
cut leaves any part, in whatever choice: a system may write what waits in any order. So at each cut
the disk may be any of many, of which some are tried: with nothing of what was not forced out, with
all of it, with all but one piece, with one piece alone, and some by chance.
"""

import os
import random
import re

from support.frames import ACK, EOT
from support.storing import PART
from support.tracing import calls_of


TEXT = re.compile(r'"((?:\\x[0-9a-f]{2})*)"(\.\.\.)?')

# By chance, at each cut.
TRIES = 12

# These change nothing on the disk.
SEEN_ONLY = {
    "execve",
    "statx",
    "newfstatat",
    "fstat",
    "flock",
    "fcntl",
    "lseek",
    "read",
    "pread64",
    "access",
    "readlinkat",
    "mmap",
    "ioctl",
    "close",
}


class Made:
    """A name of the folder means this file; None takes the name away."""

    def __init__(self, name, file):
        self.name, self.file = name, file


class Renamed:
    def __init__(self, old, new, file):
        self.old, self.new, self.file = old, new, file


class Wrote:
    def __init__(self, file, at, data):
        self.file, self.at, self.data = file, at, data


class Forced:
    """All bytes of a file are on the disk, or all names of the folder where the file is None."""

    def __init__(self, file):
        self.file = file


class Answered:
    """The EOT of one file more was acknowledged."""


class Recording:
    """What `receive` did with one folder, in order, as strace has recorded it."""

    def __init__(self, log, folder):
        self.folder, self.deeds = folder, []
        self.open, self.names, self.files = {}, {}, 0
        self.is_eot = False
        for call in calls_of(log):
            if not call.answer.startswith("-"):
                self.take(call)

    def take(self, call):
        texts = [bytes.fromhex(it[0].replace("\\x", "")) for it in TEXT.findall(call.arguments)]
        first = call.arguments.split(",")[0]
        if call.name == "recvfrom":
            self.is_eot = texts[:1] == [bytes((EOT,))]
        elif call.name == "sendto":
            if self.is_eot and texts[0][0] == ACK:
                self.deeds.append(Answered())
        elif call.name in ("openat", "open", "creat"):
            self.opened(texts[0], call)
        elif call.name == "close":
            self.open.pop(first, None)
        elif call.name in ("fsync", "fdatasync"):
            if first in self.open:
                self.deeds.append(Forced(self.open[first][0]))
        elif any(self.name(text) is not None for text in texts) or first in self.open:
            self.changed(call, first, texts)

    def name(self, path):
        """The name in the folder that a path has, if any; the folder itself is the empty name."""
        path = os.fsdecode(path)
        if path.rstrip("/") == self.folder:
            return ""
        return path[len(self.folder) + 1 :] if os.path.dirname(path) == self.folder else None

    def opened(self, path, call):
        name = self.name(path)
        if name is None:
            return
        if name and "O_CREAT" in call.arguments:
            assert "O_EXCL" in call.arguments, "it opens %r, which may be there" % name
            self.files += 1
            self.names[name] = self.files
            self.deeds.append(Made(name, self.files))
        self.open[call.answer] = [self.names[name] if name else None, 0]

    def changed(self, call, first, texts):
        if call.name == "write":
            file = self.open[first]
            data = texts[0][: int(call.answer)]
            self.deeds.append(Wrote(file[0], file[1], data))
            file[1] += len(data)
        elif call.name in ("link", "linkat"):
            old, new = (self.name(text) for text in texts)
            self.names[new] = self.names[old]
            self.deeds.append(Made(new, self.names[old]))
        elif call.name in ("rename", "renameat", "renameat2"):
            old, new = (self.name(text) for text in texts)
            self.names[new] = self.names.pop(old)
            self.deeds.append(Renamed(old, new, self.names[new]))
        elif call.name in ("unlink", "unlinkat"):
            self.names.pop(self.name(texts[0]))
            self.deeds.append(Made(self.name(texts[0]), None))
        elif call.name not in SEEN_ONLY:
            raise AssertionError("the model does not know %r" % call)


def played(deeds):
    """What the folder holds when all of these are on the disk."""
    names, files = {}, {}
    for deed in deeds:
        if isinstance(deed, Made):
            if deed.file is None:
                names.pop(deed.name, None)
            else:
                names[deed.name] = deed.file
        elif isinstance(deed, Renamed):
            names.pop(deed.old, None)
            names[deed.new] = deed.file
        elif isinstance(deed, Wrote):
            data = files.setdefault(deed.file, bytearray())
            data.extend(bytes(max(deed.at + len(deed.data) - len(data), 0)))
            data[deed.at : deed.at + len(deed.data)] = deed.data
    return {name: bytes(files.get(file, b"")) for name, file in names.items()}


def forced(deeds):
    """Which of these are on the disk for certain."""
    certain, forces = [], set()
    for deed in reversed(deeds):
        if isinstance(deed, Forced):
            forces.add(deed.file)
        certain.append((deed.file if isinstance(deed, Wrote) else None) in forces)
    return certain[::-1]


def folders_after(deeds, chance):
    """What the folder may hold after a power cut behind these."""
    certain = forced(deeds)
    waiting = [
        at
        for at, is_certain in enumerate(certain)
        if not is_certain and not isinstance(deeds[at], (Forced, Answered))
    ]
    choices = {frozenset(), frozenset(waiting)}
    choices |= {frozenset(waiting) - {at} for at in waiting} | {frozenset((at,)) for at in waiting}
    choices |= {frozenset(at for at in waiting if chance.random() < 0.5) for _ in range(TRIES)}
    for choice in choices:
        yield played([deed for at, deed in enumerate(deeds) if certain[at] or at in choice])


def losses(deeds, files, may_be_empty=False):
    """What is wrong after some power cut: a file that was acknowledged and is not there, whole, or
    a name that holds what is not its file."""
    chance = random.Random(len(deeds))
    wrong = set()
    for cut in range(len(deeds) + 1):
        done = sum(isinstance(deed, Answered) for deed in deeds[:cut])
        for found in folders_after(deeds[:cut], chance):
            wrong |= {
                "%r was acknowledged and is not whole" % name
                for name, data in files[:done]
                if found.get(name) != data
            }
            for name, data in files[done:]:
                if name in found and found[name] != data and not (may_be_empty and not found[name]):
                    wrong.add("%r holds what is not its file" % name)
            for name in found:
                if name not in dict(files) and not name.endswith(PART):
                    wrong.add("%r was left behind" % name)
    return sorted(wrong)
