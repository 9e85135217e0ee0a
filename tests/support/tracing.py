"""The program under strace: which calls of the system it makes, calls of it that are refused, and
calls at which it is stopped or killed."""

import contextlib
import re
import shutil

from support.skipping import Skipped


CALL = re.compile(r"(\d+) +(?:(\d+\.\d+) +)?(\w+)\((.*)\) += (-?\d+|\?)(.*)")
TOOK = re.compile(r" <(\d+\.\d+)>$")


class Call:
    """One call: its name, its arguments as strace prints them, what it answered, what stands behind
    that, whether it was made up, and the second in which it was over, where strace tells moments
    (-ttt -T)."""

    def __init__(self, began, name, arguments, answer, rest):
        self.name, self.arguments, self.answer, self.rest = name, arguments, answer, rest
        self.is_injected = "(INJECTED)" in rest
        took = TOOK.search(rest)
        self.over = float(began) + float(took[1]) if began and took else None

    def __repr__(self):
        return "%s(%s)" % (self.name, self.arguments[:200])


def strace(log, *options):
    """The words before those of the program. Its parent stays the one that starts it, and its
    number is its own."""
    if not shutil.which("strace"):
        raise Skipped("strace is not installed")
    return ("strace", "-D", "-f", "-o", log, *options)


def at_paths(paths):
    """Only the calls that touch one of these paths are seen, counted and changed."""
    return [word for path in paths for word in ("-P", path)]


def calls_of(log):
    """The calls in a log, in order. Each one has ended before the next one begins, since the
    program has one thread."""
    with open(log, encoding="ascii", errors="replace") as lines:
        found = [CALL.fullmatch(line.rstrip("\n")) for line in lines]
    return [Call(*it.groups()[1:]) for it in found if it]


def numbered(calls):
    """Each call with its number among those of its name, from 1, as strace counts them."""
    counts = {}
    for call in calls:
        counts[call.name] = counts.get(call.name, 0) + 1
        yield call, counts[call.name]


def is_stopped(log):
    with contextlib.suppress(FileNotFoundError), open(
        log, encoding="ascii", errors="replace"
    ) as lines:
        return "--- stopped by" in lines.read()
    return False
