"""The recording that the README shows: it is drawn from a run, a run of today looks alike, and no
line is faster there than its baud."""

import importlib.util
import os
import re

from support.cases import sentence
from support.program import PROGRAM, ROOT
from support.skipping import needs


BITS = 10


def recorder():
    path = os.path.join(ROOT, "docs", "pictures", "record.py")
    spec = importlib.util.spec_from_file_location("record", path)
    it = importlib.util.module_from_spec(spec)
    spec.loader.exec_module(it)
    return it


def kept(path):
    with open(path, encoding="utf-8") as it:
        return it.read()


@sentence("the recording is drawn by its script")
def test_is_drawn_by_script():
    record = recorder()
    drawn = record.drawn(kept(record.CAST))
    assert kept(record.PICTURE) == drawn, "docs/pictures/record.py draws another picture"
    link = "(%s)" % os.path.relpath(record.PICTURE, ROOT)
    assert link in kept(os.path.join(ROOT, "README.md")), "the README does not show it"


def kinds(events, record):
    """The lines that are shown one after another, without their numbers; those of how far it is as
    one. Where this machine does not keep up with the line, an end may wait, and repeat a block."""
    found = []
    for _, text, _, _ in record.spans(events):
        kind = re.sub(r"[\d.:]+|k?B/s", "#", re.sub(r", \d+ repeated", "", text))
        kind = re.sub(r"^(\S+# )#%.*", r"\1..", kind)
        # what begins with a space is a line of which the end is written already
        if kind not in found and not kind.startswith((" ", "waiting for an answer")):
            found.append(kind)
    # a line may come in pieces
    return [it for it in found if not any(it != more and more.startswith(it) for more in found)]


@sentence("the recording shows what is shown today")
def test_is_as_today():
    needs("rb")
    record = recorder()
    today = kinds(record.events_of(record.cast(record.recorded(PROGRAM))), record)
    then = kinds(record.events_of(kept(record.CAST)), record)
    text = "a run of today shows %r, and the recording %r; `make recording` records it anew"
    assert today == then, text % (today, then)


@sentence("the recording is at the rates of its line")
def test_is_at_true_rates():
    """So many bytes cannot be there before the line has carried them."""
    record = recorder()
    events = record.events_of(kept(record.CAST))
    for at, lines in record.screens(events):
        for done in re.findall(r"(\d+) of %d bytes" % record.BYTES, "".join(lines)):
            carried = at * record.BAUD / BITS
            assert int(done) <= carried, "%s bytes after %.3f s" % (done, at)
    assert events[-1][0] >= record.BYTES * BITS / record.BAUD, "it is too fast"
