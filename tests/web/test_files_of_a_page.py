"""Files of the page: what is dropped on it, what came and is not saved yet, and an empty file that
has bytes by now."""

import pytest
from support.cases import NEEDS_LRZSZ, case, cases_in
from support.folder import FOLDER
from support.frames import END
from support.page import (
    SIZE,
    Shown,
    begin,
    begin_receiving,
    choose,
    click,
    dial,
    firmware,
    text,
    until_ended,
    until_saved,
    until_says,
    until_share,
    wants_result,
)
from support.program import folders, write_files
from support.rooms import BROWSERS, CHROMIUM
from support.web_peers import Held, Loader, Peer, program_receives, program_sends


# A browser that tells of this one that it is a folder.
ENTRIES = """
DataTransferItem.prototype.webkitGetAsEntry = function () {
  const { name } = this.getAsFile();
  return { name, isDirectory: name === "folder" };
};
"""

DROPS = """(() => {
  const dataTransfer = new DataTransfer();
  for (const name of ["a", "folder", "b"]) dataTransfer.items.add(new File([], name));
  const drop = new DragEvent("drop", { dataTransfer, bubbles: true, cancelable: true });
  document.getElementById("drop").dispatchEvent(drop);
})()"""

CHOSEN = "[...document.querySelectorAll('#chosen .name')].map((it) => it.textContent)"


@cases_in(BROWSERS, case("page: a folder that is dropped among files"))
def test_drops(room):
    """Firefox hands one out as a file without bytes: it would be sent as that."""
    with Shown(room, ENTRIES) as page:
        page.run(DROPS)
        assert page.run(CHOSEN) == ["a", "b"], "it has chosen %s" % page.run(CHOSEN)
        wants_result(page, "folder is a folder", "Drop the files that are in it.")


@cases_in(CHROMIUM, case("page: a folder that is dropped by the hand of a user"))
def test_drops_by_hand(room):
    with folders() as (here, there), Shown(room) as page:
        page.drop("#drop", [*write_files(here, [("a", b"x")]), there])
        until_says(page, "#result", "is a folder")
        assert page.run(CHOSEN) == ["a"], "it has chosen %s" % page.run(CHOSEN)


@pytest.mark.program
@cases_in(CHROMIUM, case("page: an empty file that has bytes once it is chosen"))
def test_grows(room):
    """It is not sent as an empty one."""
    with folders() as (here, there), Shown(room) as page:
        with program_receives(there) as (bridge, ended):
            dial(page, bridge.address)
            paths = write_files(here, [("first", b"first"), ("log", b"")])
            choose(page, paths)
            until_says(page, "#chosen", "log")
            write_files(here, [("log", b"by now")])
            click(page, "#send")
            until_ended(page)
            wants_result(page, "log could not be read", "1 file is whole", "Choose the file again.")
            assert "cancelled" in ended().out, "ymodem receive says %r" % ended().out


# A name whose end is read from the right, and how it is shown.
TURNED, SHOWN = "a\u202egnp.exe", "a\\u{202e}gnp.exe"


@pytest.mark.program
@cases_in(BROWSERS, case("page: a name that turns the direction of text"))
def test_turned(room):
    """It is shown by an escape, as the program shows it, and saved under its own."""
    with folders() as (here, _), Shown(room) as page:
        receives(page, here, [(TURNED, b"x")])
        told = page.run("document.querySelector('#received .name').textContent")
        assert told == SHOWN, "it is shown as %r" % told
        assert page.run("document.querySelector('#received a').download") == TURNED
        choose(page, write_files(here, [(TURNED, b"x")]))
        assert page.run(CHOSEN) == [SHOWN], "it is shown as %r" % page.run(CHOSEN)


# Whether the browser asks before it leaves the page.
ASKS = """(() => {
  const leaves = new Event("beforeunload", { cancelable: true });
  dispatchEvent(leaves);
  return leaves.defaultPrevented;
})()"""


def receives(page, here, batch):
    with program_sends(write_files(here, batch)) as (bridge, ended):
        dial(page, bridge.address)
        begin_receiving(page)
        until_ended(page)
        assert ended().status == 0, "ymodem send failed"
    page.until("!document.getElementById('connect').hidden")


@pytest.mark.program
@cases_in(BROWSERS, case("page: it asks before files that came are lost"))
def test_asks(room):
    """Until each was saved, alone or in a folder: its sender takes it for kept."""
    with folders() as (here, there), Shown(room, FOLDER) as page:
        page.downloads_into(there)
        assert not page.run(ASKS), "it asks, and nothing came"
        receives(page, here, [("a", b"a")])
        assert page.run(ASKS), "it does not ask, and nothing was saved"
        click(page, "#received a")
        assert not page.run(ASKS), "it asks, and all was saved"
        # the browser may be at it when the folder goes
        until_saved(there, "a")
        receives(page, here, [("b", b"b"), ("c", b"c")])
        assert page.run(ASKS), "it does not ask, and not all was saved"
        click(page, "#save-all")
        until_says(page, "#came", "All saved")
        assert not page.run(ASKS), "it asks, and all was saved"


@cases_in(BROWSERS, case("page: it asks before a transfer is lost", marks=NEEDS_LRZSZ))
def test_asks_meanwhile(room):
    with folders() as (here, there), Shown(room) as page:
        line = Held(SIZE // 3)
        loader = Loader(there, line)
        dial(page, loader.bridge.address)
        begin(page, write_files(here, firmware()), "loady")
        until_share(page, 0.2)
        assert page.run(ASKS), "it does not ask"
        click(page, "#cancel")
        line.go_on()
        until_ended(page)
        assert not page.run(ASKS), "it asks, and nothing is lost"
        loader.close()


@cases_in(BROWSERS, case("page: a device that sends no file"))
def test_none(room):
    """It is not told as if something was received."""

    def ends(end):
        while end.recv(1) != b"C":
            pass
        end.sendall(END)
        end.recv(1)

    with Shown(room) as page, Peer(ends) as it:
        dial(page, it.bridge.address)
        begin_receiving(page)
        until_ended(page)
        wants_result(page, "The device sent no file")
        assert "✓" not in text(page, "#result"), "the page says " + text(page, "#result")


# A clock that stands still: whatever the page waits for so long never comes.
STILL = "performance.now = () => 0;"


@cases_in(BROWSERS, case("page: the line goes once the command was typed"))
def test_goes_at_once(room):
    """The page does not wait for an answer then."""

    def goes(end):
        while end.recv(1) != b"\r":
            pass

    with folders() as (here, _), Shown(room, STILL) as page, Peer(goes) as it:
        dial(page, it.bridge.address)
        begin(page, write_files(here, [("a", b"x")]), "loady")
        it.join()
        it.end.close()
        until_ended(page)
        wants_result(page, "The connection is gone")


# A folder that is chosen once the check says so.
SLOW_FOLDER = (
    FOLDER
    + """
const pick = showDirectoryPicker;
globalThis.picks = 0;
globalThis.showDirectoryPicker = async () => {
  picks++;
  await new Promise((done) => (globalThis.choose = done));
  return pick();
};
"""
)


@pytest.mark.program
@cases_in(BROWSERS, case("page: a folder is asked for once, also where it is asked for twice"))
def test_saves_once(room):
    with folders() as (here, _), Shown(room, SLOW_FOLDER) as page:
        receives(page, here, [("a", b"a"), ("b", b"b")])
        click(page, "#save-all")
        click(page, "#save-all")
        page.run("choose()")
        until_says(page, "#came", "saved")
        assert page.run("picks") == 1, "it has asked %d times" % page.run("picks")
        assert text(page, "#saved") == "All saved", "the page says " + text(page, "#saved")
