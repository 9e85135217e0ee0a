"""The page itself: used as somebody would use it, from a disk, and looked at. Pictures of its
states are left in out/pictures."""

import contextlib
import json
import os
import random
import re

import pytest
from support.cases import NEEDS_LRZSZ, case, cases_in
from support.folder import FOLDER
from support.page import (
    SIZE,
    Loud,
    Shown,
    begin,
    begin_receiving,
    choose,
    click,
    dial,
    firmware,
    picture,
    text,
    until_ended,
    until_saved,
    until_says,
    until_share,
    wants_result,
)
from support.program import folders, stored, wants_same, wants_stored, write_files
from support.relay import Seeded
from support.rooms import BROWSERS
from support.serial_port import SERIAL
from support.web_peers import Held, Loader, Peer, lrzsz, program_receives, program_sends


@cases_in(BROWSERS, case("page: a whole update", marks=NEEDS_LRZSZ))
def test_update(room):
    """A whole update on one page: the prompt, the command, the file, and what the loader says of
    it."""
    with folders() as (here, there), Shown(room) as page:
        picture(page, "1-start")
        batch, line = firmware(), Held(SIZE // 2)
        loader = Loader(there, line)
        dial(page, loader.bridge.address)
        until_says(page, "#screen", "=>")
        choose(page, write_files(here, batch), "loady")
        picture(page, "2-ready")
        click(page, "#send")
        until_share(page, 0.4)
        # the line stands still, and how fast it went can still be seen
        until_says(page, "#figures", "standing still for")
        told = text(page, "#figures")
        assert "/s" in told and " left" in told, "while the line stands still the page says " + told
        picture(page, "3-sending")
        page.scheme("dark")
        picture(page, "3-sending-dark")
        page.scheme("light")
        line.go_on()
        until_ended(page)
        until_says(page, "#screen", "## Total Size")
        until_says(page, "#screen", "=>")
        picture(page, "4-sent")
        wants_result(page, "1 file, 781 KiB")
        wants_stored(there, batch)
        # the line is the terminal's again
        page.run("document.getElementById('screen').focus()")
        for sign in "help":
            page.key(sign)
        page.key("Enter")
        until_says(page, "#screen", "Unknown command 'help'")
        loader.close()


def save(page, folder):
    """Presses each button that saves a file, as the browser keeps it."""
    page.downloads_into(folder)
    names = page.run("[...document.querySelectorAll('#received a')].map((it) => it.download)")
    for at, name in enumerate(names):
        page.run("document.querySelectorAll('#received a')[%d].click()" % at)
        until_saved(folder, name)


@cases_in(BROWSERS, case("page: receives, and saves", marks=NEEDS_LRZSZ))
def test_receives(room):
    with folders() as (here, there), Shown(room) as page:
        chance = random.Random(3)
        batch = [
            ("notes.txt", b"hello\n" * 400),
            ("empty", b""),
            ("log.bin", chance.randbytes(70000)),
        ]
        write_files(here, batch)
        with lrzsz(["sb", "-q", *(name for name, _ in batch)], here) as (bridge, status):
            dial(page, bridge.address)
            picture(page, "5-receive")
            begin_receiving(page)
            until_ended(page)
            assert status() == 0, "sb failed"
        page.until("document.querySelectorAll('#received a').length === 3")
        picture(page, "6-received")
        save(page, there)
        wants_same(stored(there), dict(batch))


def thirty():
    chance = random.Random(19)
    return [("file %02d.bin" % at, chance.randbytes(at * at * 17)) for at in range(30)]


@pytest.mark.program
@cases_in(BROWSERS, case("page: sends thirty files, four deliveries damaged"))
def test_sends_thirty(room):
    """By the page, on a line that is damaged."""
    with folders() as (here, there), Shown(room) as page:
        with program_receives(there, Seeded(53, 0.05, 4)) as (bridge, ended):
            dial(page, bridge.address)
            begin(page, write_files(here, thirty()))
            until_ended(page)
            wants_result(page, "30 files")
            assert ended().status == 0, "ymodem receive failed"
        wants_stored(there, thirty())


@pytest.mark.program
@cases_in(BROWSERS, case("page: a folder that takes some of what came"))
def test_saves_some(room):
    """What is there already stays, what the folder takes is saved, and the rest is told."""
    with folders() as (here, _), Shown(room, FOLDER) as page:
        page.run("kept.a = '6f6c64'")
        batch = [(name, b"new") for name in ("a", "b~", "full", "c")]
        with program_sends(write_files(here, batch)) as (bridge, ended):
            dial(page, bridge.address)
            begin_receiving(page)
            until_ended(page)
            assert ended().status == 0, "ymodem send failed"
        click(page, "#save-all")
        until_says(page, "#came", "Not all could be saved")
        for told in ("a: it is there already", "b~: Name is not allowed.", "full: no room"):
            assert told in text(page, "#came"), "the page says " + text(page, "#came")
        assert page.run("kept") == {"a": "6f6c64", "c": b"new".hex()}


@pytest.mark.program
@cases_in(BROWSERS, case("page: receives thirty files, four deliveries damaged, and saves them"))
def test_receives_thirty(room):
    with folders() as (here, _), Shown(room, FOLDER) as page:
        with program_sends(write_files(here, thirty()), Seeded(54, 0.05, 4)) as (bridge, ended):
            dial(page, bridge.address)
            begin_receiving(page)
            until_ended(page)
            wants_result(page, "Received", "30 files")
            assert ended().status == 0, "ymodem send failed"
        click(page, "#save-all")
        until_says(page, "#came", "All saved")
        wants_same(
            {name: bytes.fromhex(data) for name, data in page.run("kept").items()}, dict(thirty())
        )


@pytest.mark.program
@cases_in(BROWSERS, case("page: files that came stay, also behind another transfer"))
def test_keeps(room):
    """A sender takes them for kept, so the page drops none of them by itself."""
    with folders() as (here, _), Shown(room, FOLDER) as page:
        for name in ("a", "b"):
            with program_sends(write_files(here, [(name, name.encode())])) as (bridge, ended):
                dial(page, bridge.address)
                begin_receiving(page)
                until_ended(page)
                assert ended().status == 0, "ymodem send failed"
            page.until("!document.getElementById('connect').hidden")
        assert text(page, "#received").split() == ["a", "1", "B", "Save", "b", "1", "B", "Save"]
        click(page, "#save-all")
        until_says(page, "#came", "All saved")
        assert page.run("kept") == {"a": b"a".hex(), "b": b"b".hex()}
        with program_sends(write_files(here, [("c", b"c")])) as (bridge, ended):
            dial(page, bridge.address)
            begin_receiving(page)
            until_ended(page)
            assert ended().status == 0, "ymodem send failed"
        # one that came behind is not
        assert "All saved" not in text(page, "#came"), "the page says " + text(page, "#came")


@pytest.mark.program
@cases_in(
    BROWSERS,
    case("page: a file that is cut once it is chosen", 300000),
    case("page: a file that is emptied once it is chosen", 0),
)
def test_cut(room, length):
    """What is left of it is not sent as the file, with padding for the rest."""
    with folders() as (here, there), Shown(room) as page:
        with program_receives(there) as (bridge, ended):
            dial(page, bridge.address)
            first = ("first", b"first")
            paths = write_files(here, [first, *firmware()])
            choose(page, paths)
            until_says(page, "#chosen", "firmware.bin")
            os.truncate(paths[1], length)
            click(page, "#send")
            until_ended(page)
            wants_result(page, "firmware.bin could not be read", "Choose the file again.")
            assert "cancelled" in ended().out, "ymodem receive says %r" % ended().out
        wants_stored(there, [first])


@cases_in(BROWSERS, case("page: a name that cannot be sent, among others"))
def test_long_name(room):
    """The page says which it is, and writes nothing."""
    with folders() as (_, there), Shown(room) as page:
        loader = Loader(there)
        dial(page, loader.bridge.address)
        until_says(page, "#screen", "=>")
        page.run(
            """(() => {
          const list = new DataTransfer();
          for (const name of ["a", "n".repeat(256), "b"]) list.items.add(new File(["x"], name));
          const pick = document.querySelector("#pick");
          pick.files = list.files;
          pick.dispatchEvent(new Event("change"));
        })()"""
        )
        click(page, "#send")
        until_ended(page)
        wants_result(page, "n" * 256 + "'s name or length cannot be used", "The name is too long")
        loader.close()


@contextlib.contextmanager
def sending_firmware(room, **how):
    """The page in the middle of a transfer, on a line that stands still: the page, the loader at
    its other end, and the line."""
    with folders() as (here, there), Shown(room, **how) as page:
        line = Held(SIZE // 3)
        loader = Loader(there, line)
        dial(page, loader.bridge.address)
        begin(page, write_files(here, firmware()), "loady")
        until_share(page, 0.2)
        try:
            yield page, loader, line
        finally:
            loader.close()
            line.go_on()


@cases_in(BROWSERS, case("page: cancelled while it sends", marks=NEEDS_LRZSZ))
def test_cancels_sending(room):
    with sending_firmware(room) as (page, _, line):
        click(page, "#cancel")
        line.go_on()
        until_ended(page)
        wants_result(page, "You cancelled")
        until_says(page, "#screen", "download aborted")
        picture(page, "7-cancelled")


@pytest.mark.program
@cases_in(BROWSERS, case("page: cancelled while it receives"))
def test_cancels_receiving(room):
    with folders() as (here, _), Shown(room) as page:
        line = Held(SIZE // 3)
        with program_sends(write_files(here, [("a", b"first"), *firmware()]), damage=line) as (
            bridge,
            ended,
        ):
            dial(page, bridge.address)
            begin_receiving(page)
            until_says(page, "#now-file", "firmware.bin")
            until_share(page, 0.2)
            click(page, "#cancel")
            line.go_on()
            until_ended(page)
            wants_result(page, "You cancelled", "1 file is whole")
            assert (
                page.run("document.querySelector('#received a').download") == "a"
            ), "the file that came whole is not there"
            last = ended()
            assert "cancelled" in last.out, "ymodem send says %r" % last.out


@cases_in(BROWSERS, case("page: the line vanishes in a transfer", marks=NEEDS_LRZSZ))
def test_vanishes(room):
    """The port is gone in the middle of a transfer."""
    with sending_firmware(room, is_cut=True) as (page, loader, line):
        loader.close()
        line.go_on()
        until_ended(page)
        wants_result(page, "The connection is gone")
        assert page.run(
            "!document.getElementById('connect').hidden"
        ), "the page does not offer to connect anew"
        picture(page, "8-gone")


@cases_in(BROWSERS, case("page: the line vanishes while nothing goes on"))
def test_vanishes_idle(room):
    with folders() as (_, there), Shown(room) as page:
        loader = Loader(there)
        dial(page, loader.bridge.address)
        until_says(page, "#screen", "=>")
        loader.close()
        page.until(
            "!document.getElementById('result').hidden &&"
            " !document.getElementById('connect').hidden"
        )
        wants_result(page, "The connection is gone")


@cases_in(BROWSERS, case("page: no connection"))
def test_no_connection(room):
    with Loud(room) as page:
        click(page, "[name=way][value=socket]")
        page.run("document.getElementById('address').value = %s" % json.dumps("ws://127.0.0.1:1"))
        click(page, "#dial")
        until_says(page, "#result", "Nobody answered at ws://127.0.0.1:1")
        picture(page, "9-no-connection")


# Errors of the browser at an address: what a page that came by https is told of ws://, and what
# is told where somebody typed no address at all.
REFUSES = """
globalThis.WebSocket = class { constructor() { throw new DOMException('refused', '%s'); } };
"""


@cases_in(
    BROWSERS,
    case("page: an address that the browser refuses", "SecurityError"),
    case("page: an address that is none", "SyntaxError"),
)
def test_refused_address(room, name):
    """What is said is about the address, and not about serial ports."""
    with Loud(room, REFUSES % name) as page:
        click(page, "[name=way][value=socket]")
        click(page, "#dial")
        until_says(page, "#result", "Nobody answered at ws://127.0.0.1:8080.")
        wants_result(page, "wss://, as it must where this page came by https")
        assert "serial" not in text(page, "#result"), "the page says " + text(page, "#result")


@cases_in(BROWSERS, case("page: an address, where the speed of the serial port is none"))
def test_no_speed(room):
    """A field that is not shown keeps nobody from connecting."""
    with folders() as (_, there), Shown(room, SERIAL) as page:
        page.run("document.getElementById('speed').value = ''")
        loader = Loader(there)
        dial(page, loader.bridge.address)
        until_says(page, "#screen", "=>")
        loader.close()


@cases_in(BROWSERS, case("page: nobody asks"))
def test_nobody_asks(room):
    """A sender that is never asked: what the page says after a hundred seconds."""
    with folders() as (here, there), Shown(room) as page:
        loader = Loader(there)
        dial(page, loader.bridge.address)
        until_says(page, "#screen", "=>")
        begin(page, write_files(here, firmware()))
        page.until("document.getElementById('now-file').innerText.includes('Waiting')")
        picture(page, "10-waiting")
        until_ended(page)
        wants_result(page, "never asked for a file")
        picture(page, "11-never-asked")
        loader.close()


def clock():
    """The clock of tests/web/lines.js, which the check winds on, for a page of its own."""
    with open(os.path.join(os.path.dirname(__file__), "lines.js"), encoding="utf-8") as it:
        found = re.search(r"^class Clock \{\n.*?^\}\n", it.read(), re.M | re.S)
    return found[0] + "globalThis.clock = new Clock();\n"


# Seconds in which nothing is offered, by the page's own clock: a quarter of an hour, and what its
# last try takes beyond that.
QUARTER, LAST_TRY = 900, 32


@cases_in(BROWSERS, case("page: nobody offers a file for a quarter of an hour"))
def test_waits(room):
    """It goes on asking for so long, and says that it did."""
    script = """(async () => {
      const began = clock.now;
      document.querySelector("#receive").click();
      await clock.until(() => !document.querySelector("#result").hidden);
      return (clock.now - began) / 1000;
    })()"""

    def listens(end):
        while end.recv(4096):
            pass

    with Shown(room, clock()) as page, Peer(listens) as it:
        dial(page, it.bridge.address)
        click(page, "[name=way2][value=receive]")
        seconds = page.run(script)
        assert QUARTER <= seconds <= QUARTER + LAST_TRY, "it asked for %.0f s" % seconds
        wants_result(page, "for a quarter of an hour, and no file was offered")
        click(page, "#disconnect")
