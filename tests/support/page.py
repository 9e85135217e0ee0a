"""The page in a browser, from a disk, and what somebody does at it."""

import contextlib
import json
import os
import random

from support.program import ROOT
from support.waits import wait_until


PAGE = "file://" + os.path.join(ROOT, "out", "web", "index.html")
PICTURES = os.path.join(ROOT, "out", "pictures")
# Streams as browsers have them that are older than their standard of 2022.
HELD = """
const { read, releaseLock } = ReadableStreamDefaultReader.prototype;
let waiting = 0;
Object.assign(ReadableStreamDefaultReader.prototype, {
  read() { waiting++; return read.call(this).finally(() => waiting--); },
  releaseLock() { if (waiting) throw new TypeError('a read waits'); releaseLock.call(this); },
});
"""
# 800,000 bytes, as the loader says.
SIZE = 800000


class Loud:
    """The page, from the disk; closed at the end."""

    def __init__(self, room, before="", **how):
        self.page = room.browser.page(PAGE, before, **how)

    def __enter__(self):
        return self.page

    def __exit__(self, *_):
        self.page.close()


class Shown(Loud):
    """The same, without complaints of the browser. Where a connection is cut Firefox tells of that,
    if bytes were on their way to it."""

    def __init__(self, room, before="", is_cut=False, **how):
        super().__init__(room, before, **how)
        self.is_cut = is_cut

    def __exit__(self, kind, *_):
        said = self.page.complaints()
        if self.is_cut:
            said = [it for it in said if not it.startswith("The connection to ws://")]
        self.page.close()
        if kind is None:
            assert not said, "the page complains: %s" % said


def picture(page, name):
    """Keeps a picture of the page, but in a tree that is only read."""
    folder = os.path.join(PICTURES, page.browser.name)
    with contextlib.suppress(PermissionError):
        os.makedirs(folder, exist_ok=True)
        page.picture(os.path.join(folder, name + ".png"))


def click(page, where):
    page.run("document.querySelector(%s).click()" % json.dumps(where))


def text(page, where):
    return page.run("document.querySelector(%s).innerText" % json.dumps(where))


def wants_result(page, *wanted):
    """What the page says of the end of a transfer."""
    said = text(page, "#result")
    assert all(it in said for it in wanted), "the page says " + said


def dial(page, address):
    click(page, "[name=way][value=socket]")
    page.run("document.getElementById('address').value = %s" % json.dumps(address))
    click(page, "#dial")
    page.until("!document.getElementById('connected').hidden")


def until_says(page, where, what):
    page.until(
        "document.querySelector(%s).innerText.includes(%s)" % (json.dumps(where), json.dumps(what))
    )


def until_ended(page):
    page.until(
        "!document.getElementById('result').hidden && document.getElementById('transfer').hidden"
    )


def until_share(page, share):
    """Waits until so much of a transfer has gone."""
    page.until("document.getElementById('bar').value > %s" % share)


def until_saved(folder, name):
    """Waits until the browser has saved a file there. While it does, that may have another name
    beside its own."""

    def is_saved():
        there = os.listdir(folder)
        return name in there and not any(it.endswith((".part", ".crdownload")) for it in there)

    wait_until(is_saved, "the browser has saved " + name)


def choose(page, paths, command=""):
    """Gives the page these files, and the command to type first."""
    page.give("#pick", paths)
    page.run("document.querySelector('#send-command').value = %s" % json.dumps(command))


def begin(page, paths, command=""):
    """The same, and lets it send."""
    choose(page, paths, command)
    click(page, "#send")


def begin_receiving(page):
    click(page, "[name=way2][value=receive]")
    click(page, "#receive")


def firmware():
    return [("firmware.bin", random.Random(9).randbytes(SIZE))]
