"""What the checks of packages share."""

import glob
import hashlib
import os
import re

from support.program import PROGRAM
from support.skipping import Skipped

# What a package of this tree is called, and when its files were last changed.
FIXED = {**os.environ, "VERSION": "0+test", "SOURCE_DATE_EPOCH": "1700000000"}
# A link or a picture of a page, what has none, and what a page names of what stands beside it.
LINK = re.compile(r"\]\((?!https?:)([^)\s#]+)")
LISTING = re.compile(r"^```.*?^```|`[^`]*`", re.M | re.S)
NAMED = re.compile(r"`((?:docs|examples)/[\w./-]+)`")


def linked_program():
    """The program as it is linked. A script in its place cannot be packed."""
    with open(PROGRAM, "rb") as it:
        if it.read(4) != b"\x7fELF":
            raise Skipped("%s is a script" % PROGRAM)
    return PROGRAM


def lacking(documents):
    """What pages below this folder link to or name, and is not there."""
    pages = glob.glob(documents + "/**/*.md", recursive=True)
    assert len(pages) > 20, "it has %d pages" % len(pages)
    wanted = set()
    for page in pages:
        with open(page, encoding="utf-8") as it:
            text = it.read()
        links = LINK.findall(LISTING.sub("", text))
        wanted |= {os.path.join(os.path.dirname(page), it) for it in links}
        wanted |= {os.path.join(documents, it) for it in NAMED.findall(text)}
    assert len(wanted) > 30, "%d links were found" % len(wanted)
    return sorted(os.path.relpath(it, documents) for it in wanted if not os.path.exists(it))


def sum_of(file):
    with open(file, "rb") as it:
        return hashlib.sha256(it.read()).hexdigest()
