#!/usr/bin/env python3
"""Runs the tests of folders of tests/, by pytest. Debian has it for its own Python, so it is run by
that one, whatever `python3` on the path is.

usage: checks.py FOLDER.. [WORD..]
  FOLDER      a folder of tests/, as line
  WORD        a word of pytest, as -x; --check WORDS has only the tests made whose sentences have
              these words, and -m long those that take minutes

The tests are of the program that the environment variable YMODEM names, else of
crates/ymodem/out/ymodem. PYTEST names another command in place of pytest.
"""

import os
import re
import shlex
import subprocess
import sys

sys.dont_write_bytecode = True
TESTS = os.path.join(os.path.dirname(os.path.dirname(os.path.abspath(__file__))), "tests")
PYTEST = "/usr/bin/python3 -B -m pytest"
MISSING = "No module named pytest"
# The last line of pytest has such parts.
COUNTED = re.compile(r"(\d+) (passed|failed|errors?|skipped)\b")


def words_of(*words):
    """What runs pytest with these words."""
    return [*shlex.split(os.environ.get("PYTEST", PYTEST)), "-q", *words]


def counts_of(said):
    """How many tests passed, failed and were skipped, by what pytest said; or nothing."""
    lines = said.rstrip("\n").splitlines()
    found = {
        what.removesuffix("s"): int(it) for it, what in COUNTED.findall(lines[-1] if lines else "")
    }
    if not found:
        return None
    failed = found.get("failed", 0) + found.get("error", 0)
    return found.get("passed", 0), failed, found.get("skipped", 0)


def skipped_of(said):
    """The lines that tell what was skipped, and why."""
    return [it for it in said.splitlines() if it.startswith("SKIPPED ")]


def told(counts):
    return "%d passed, %d failed, %d skipped" % tuple(counts)


def main(words):
    there = [it for it in words if os.path.isdir(os.path.join(TESTS, it)) and "/" not in it]
    if not there:
        sys.exit(__doc__)
    more = [it for it in words if it not in there]
    return subprocess.run(words_of(*(os.path.join(TESTS, it) for it in there), *more)).returncode


if __name__ == "__main__":
    sys.exit(main(sys.argv[1:]))
