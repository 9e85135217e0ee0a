#!/usr/bin/env python3
"""The program's version stands in one place, VERSION of crates/ym_words/src/command.rt. This prints it.

The packages and the file for pkg-config are made with what this prints. The manual pages and the
header for C spell the same number, so that they can be read as they lie here.

usage: version.py           prints the version
       version.py check     tells which of those files spells another one: then the status is 1
       version.py set V     makes V the version, in all of them
"""

import os
import re
import sys

ROOT = os.path.dirname(os.path.dirname(os.path.abspath(__file__)))
PLACE = ("crates/ym_words/src/command.rt", r'^const VERSION: &str = "(.*)";$')
# Where it is spelled too.
COPIES = (
    ("include/ymodem.h", r'^#define YM_VERSION "(.*)"$'),
    ("share/man/ymodem.1", r"^This page is that of version (.*)\.$"),
    ("share/man/ymodem-tty.1", r"^This page is that of version (.*)\.$"),
    ("share/man/ymodem-judge.1", r"^This page is that of version (.*)\.$"),
)
NUMBER = re.compile(r"\d+\.\d+\.\d+")


def text_of(name):
    with open(os.path.join(ROOT, name), encoding="utf-8") as it:
        return it.read()


def spelled(name, pattern):
    """The version that a file spells. It has to spell one, once."""
    found = re.findall(pattern, text_of(name), re.M)
    if len(found) != 1:
        sys.exit("%s spells the version %d times: one line has to match %s" % (name, len(found), pattern))
    return found[0]


def check():
    version = spelled(*PLACE)
    wrong = [(name, other) for name, pattern in COPIES if (other := spelled(name, pattern)) != version]
    for name, other in wrong:
        print("%s spells %s, and the version is %s: tools/version.py set %s" % (name, other, version, version))
    return 1 if wrong else 0


def put(version):
    if not NUMBER.fullmatch(version):
        sys.exit("a version is three numbers, as 0.2.0, and not %s" % version)
    for name, pattern in (PLACE, *COPIES):
        spelled(name, pattern)
        changed = re.sub(pattern, lambda it: it[0].replace(it[1], version), text_of(name), flags=re.M)
        with open(os.path.join(ROOT, name), "w", encoding="utf-8") as it:
            it.write(changed)
    return 0


def main(words):
    if not words:
        print(spelled(*PLACE))
        return 0
    if words == ["check"]:
        return check()
    if len(words) == 2 and words[0] == "set":
        return put(words[1])
    sys.exit(__doc__)


sys.exit(main(sys.argv[1:]))
