"""The calls on files that `receive` makes over a batch."""

import os
import random

from support.program import folders
from support.storing import part_of, received, told
from support.tracing import at_paths, calls_of, numbered, strace

CHANCE = random.Random(18)
FEW_FILES = [("first", CHANCE.randbytes(66_000)), ("empty", b""), ("third", CHANCE.randbytes(200))]


def paths_of(folder, files):
    """All paths that `receive` has to do with."""
    return [
        folder,
        *(os.path.join(folder, it) for name, _ in files for it in (name, part_of(name))),
    ]


def file_calls(files, flags=(), more=()):
    """The calls on files that `receive` makes over a batch, when none of them fails."""
    with folders() as (log, there):
        log = os.path.join(log, "log")
        received(files, there, flags, strace(log, *more, *at_paths(paths_of(there, files))))[
            0
        ].wants(0, told(files))
        return list(numbered(calls_of(log)))
