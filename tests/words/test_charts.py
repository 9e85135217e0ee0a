"""The charts of docs/pictures against the traces that the program prints today."""

import importlib.util
import os
import re

from support.cases import sentence
from support.program import PROGRAM, ROOT


PICTURES = os.path.join(ROOT, "docs", "pictures")


def charts():
    spec = importlib.util.spec_from_file_location("draw", os.path.join(PICTURES, "draw.py"))
    draw = importlib.util.module_from_spec(spec)
    spec.loader.exec_module(draw)
    return draw.charts(PROGRAM)


@sentence("the charts are those of today's traces")
def test_are_of_today():
    old = []
    for file, drawn in charts():
        try:
            with open(file, encoding="utf-8") as it:
                is_same = it.read() == drawn
        except FileNotFoundError:
            is_same = False
        if not is_same:
            old.append(os.path.basename(file))
    assert not old, "not as today's traces are: %s; `make charts` draws them" % ", ".join(old)


@sentence("each chart is shown")
def test_are_shown():
    """Each picture is shown in the page on the protocol, and what pages show is there."""
    shown = set()
    for page in ("README.md", "docs/protocol.md"):
        with open(os.path.join(ROOT, page), encoding="utf-8") as it:
            for link in re.findall(r"\]\(([^)]*\.svg)\)", it.read()):
                shown.add(os.path.normpath(os.path.join(ROOT, os.path.dirname(page), link)))
    wanted = {file for file, _ in charts()} | {os.path.join(PICTURES, "transfer.svg")}
    assert shown == wanted, "shown: %s; drawn: %s" % (sorted(shown), sorted(wanted))
