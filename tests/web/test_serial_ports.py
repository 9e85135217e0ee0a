"""The page at a serial port of the check's own, whose line is a WebSocket."""

import contextlib
import json
import re

from support.cases import NEEDS_LRZSZ, case, cases_in
from support.page import (
    SIZE,
    Loud,
    Shown,
    begin,
    click,
    dial,
    firmware,
    picture,
    text,
    until_ended,
    until_says,
    until_share,
    wants_result,
)
from support.program import folders, wants_stored, write_files
from support.rooms import BROWSERS
from support.serial_port import RATE, SERIAL, at_serial_port
from support.web_peers import Flips, Held, Loader, Paced


@cases_in(BROWSERS, case("page: a serial port with errors", marks=NEEDS_LRZSZ))
def test_serial(room):
    """By a serial port, over a line that has errors."""
    with folders() as (here, there), Shown(room, SERIAL) as page:
        click(page, "#choose")
        until_says(page, "#result", "No port was chosen")
        picture(page, "12-no-port")
        line = Held(SIZE // 3, Flips(71, 3))
        loader = Loader(there, line)
        page.run("document.getElementById('speed').value = 921600")
        at_serial_port(page, loader.bridge.address)
        assert page.run("fake.opened[0].baudRate") == 921600, "the speed is another one"
        page.run("fake.fault()")
        begin(page, write_files(here, firmware()), "loady")
        until_share(page, 0.2)
        page.run("fake.fault()")
        line.go_on()
        until_ended(page)
        wants_result(page, "Sent")
        wants_stored(there, firmware())
        click(page, "#disconnect")
        page.until("fake.closed === 1")
        loader.close()


@cases_in(BROWSERS, case("page: a serial port that does not open"))
def test_not_opened(room):
    """A browser says the same of a port that is busy, and of a speed that it does not have."""
    with Loud(room, SERIAL) as page:
        page.run("fake.address = 'ws://127.0.0.1:1'")
        click(page, "#choose")
        page.until("!document.getElementById('result').hidden")
        wants_result(page, "Another program may have it open", "it does not have this speed")


@cases_in(BROWSERS, case("page: a serial port with a pace", marks=NEEDS_LRZSZ))
def test_paced(room):
    """By a serial port whose line has a pace: the page tells a rate that it can have."""
    with folders() as (here, there), Shown(room, SERIAL) as page:
        loader = Loader(there, Paced(RATE))
        at_serial_port(page, loader.bridge.address)
        begin(page, write_files(here, [("a.bin", bytes(40000))]), "loady")
        until_share(page, 0.5)
        told = text(page, "#figures")
        # a busy machine may make less than a KiB a second of it
        rate = re.search(r"([\d.]+) (B|KiB)/s", told)
        most = RATE / {"B": 1, "KiB": 1024}[rate[2]] if rate else 0
        assert rate and 0 < float(rate[1]) <= most, "the page says " + told
        assert " left" in told, "the page says " + told
        until_ended(page)
        wants_result(page, "Sent")
        wants_stored(there, [("a.bin", bytes(40000))])
        loader.close()


@cases_in(BROWSERS, case("page: what it remembers"))
def test_remembers(room):
    """The port, the speed and the address are those of the last time."""
    storage = room.browser.storage()
    shown = lambda: Shown(room, SERIAL, storage=storage)
    value = lambda page, of: page.run("document.querySelector('%s').value" % of)
    with folders() as (_, there), contextlib.ExitStack() as pages:
        loaders = [Loader(there) for _ in range(3)]
        first = pages.enter_context(shown())
        is_offered = not first.run("document.getElementById('again').hidden")
        assert not is_offered, "a port is offered that was never chosen"
        first.run("document.getElementById('speed').value = 921600")
        at_serial_port(first, loaders[0].bridge.address)

        second = pages.enter_context(shown())
        second.until("!document.getElementById('again').hidden")
        offered = text(second, "#again")
        assert offered == "Connect to USB 0403:6001", "it offers " + offered
        picture(second, "16-again")
        second.run("fake.address = %s" % json.dumps(loaders[1].bridge.address))
        click(second, "#again")
        until_says(second, "#screen", "=>")
        assert second.run("fake.opened[0].baudRate") == 921600, "the speed is another one"

        dial(pages.enter_context(shown()), loaders[2].bridge.address)
        last = pages.enter_context(shown())
        assert value(last, "[name=way]:checked") == "socket", "another way"
        assert value(last, "#address") == loaders[2].bridge.address, "another address"
        assert value(last, "#speed") == "921600", "another speed"
        for it in loaders:
            it.close()


# Two adapters of one kind, of which one was in use the last time. The second one is chosen.
TWINS = (
    SERIAL
    + """
(() => {
  // the page before it, which is empty, keeps nothing
  if (location.protocol !== 'file:') return;
  const { serial } = navigator;
  localStorage.chosen = 'yes';
  localStorage.ymodem = JSON.stringify({ way: 'serial', port: 'USB 0403:6001' });
  fake.twins = Promise.all([serial.getPorts(), serial.getPorts()]).then((it) => it.flat());
  fake.asked = 0;
  serial.getPorts = () => { fake.asked++; return fake.twins; };
  serial.requestPort = async () => (await fake.twins)[1];
  serial.addEventListener = (name, act) => { fake[name] = act; };
})();
"""
)


@cases_in(BROWSERS, case("page: of two adapters of one kind the other one is not offered"))
def test_twins(room):
    """Their numbers are the same: what is sent to the other one may be sent to another board."""
    is_offered = "!document.getElementById('again').hidden"
    with folders() as (_, there), Shown(room, TWINS) as page:
        page.until("fake.asked === 1")
        assert not page.run(is_offered), "one of the two is offered"
        loader = Loader(there)
        at_serial_port(page, loader.bridge.address)
        page.run("fake.disconnect()")
        click(page, "#disconnect")
        page.until(is_offered)
        loader.close()
        loader = Loader(there)
        page.run("fake.address = %s" % json.dumps(loader.bridge.address))
        click(page, "#again")
        page.until("!document.getElementById('connected').hidden")
        is_right = page.run("fake.twins.then(([other]) => other.socket === undefined)")
        assert is_right, "it is connected to the other one"
        loader.close()


@cases_in(BROWSERS, case("page: the serial port vanishes", marks=NEEDS_LRZSZ))
def test_vanishes(room):
    with folders() as (here, there), Shown(room, SERIAL) as page:
        line = Held(SIZE // 3)
        loader = Loader(there, line)
        at_serial_port(page, loader.bridge.address)
        begin(page, write_files(here, firmware()), "loady")
        until_share(page, 0.2)
        loader.close()
        line.go_on()
        until_ended(page)
        wants_result(page, "The port failed")


# That port as a browser has it: it is one, it is open or not, and its writes may get stuck.
STUCK = (
    SERIAL
    + """
(() => {
  const { serial } = navigator, choose = serial.requestPort;
  let port;
  const made = async () => {
    port = await choose();
    const [open, close] = [port.open.bind(port), port.close.bind(port)];
    const write = (bytes) => (fake.isStuck ? new Promise(() => {}) : port.socket.send(bytes));
    port.open = async (options) => {
      if (fake.isOpen) throw new DOMException('The port is already open.', 'InvalidStateError');
      await open(options);
      fake.isOpen = true;
      port.writable = new WritableStream({ write });
    };
    port.close = async () => { await close(); fake.isOpen = false; };
    return port;
  };
  serial.requestPort = async () => port ?? made();
})();
"""
)


def connects_again(page, there):
    """The port was closed, and can be opened anew."""
    page.until("!document.getElementById('connect').hidden")
    assert page.run("fake.isOpen") is False, "the port is open"
    loader = Loader(there)
    page.run("fake.isStuck = false")
    page.run("fake.address = %s" % json.dumps(loader.bridge.address))
    click(page, "#choose")
    page.until("!document.getElementById('connected').hidden")
    loader.close()


@cases_in(BROWSERS, case("page: the port takes nothing that is typed, and is let go"))
def test_typing_stuck(room):
    with folders() as (_, there), Shown(room, STUCK) as page:
        loader = Loader(there)
        at_serial_port(page, loader.bridge.address)
        page.run("fake.isStuck = true")
        click(page, "#interrupt")
        click(page, "#disconnect")
        loader.close()
        connects_again(page, there)


@cases_in(
    BROWSERS,
    case("page: cancelled while the port takes no command", "loady", False),
    case("page: cancelled while the port takes nothing that was typed", "", True),
)
def test_cancels_stuck(room, command, is_typed):
    """The page does not wait for the port, and goes on once it takes something again."""
    with folders() as (here, there), Shown(room, STUCK) as page:
        loader = Loader(there)
        at_serial_port(page, loader.bridge.address)
        page.run("fake.isStuck = true")
        if is_typed:
            click(page, "#interrupt")
        begin(page, write_files(here, [("a", b"x")]), command)
        page.until("!document.getElementById('transfer').hidden")
        click(page, "#cancel")
        until_ended(page)
        wants_result(page, "You cancelled", "The line takes nothing, so the device was not told.")
        click(page, "#disconnect")
        loader.close()
        connects_again(page, there)


@cases_in(
    BROWSERS, case("page: the port takes nothing any more, and its line breaks", marks=NEEDS_LRZSZ)
)
def test_sending_stuck(room):
    with folders() as (here, there), Shown(room, STUCK) as page:
        loader = Loader(there)
        at_serial_port(page, loader.bridge.address)
        begin(page, write_files(here, firmware()), "loady")
        until_share(page, 0.05)
        page.run("fake.isStuck = true")
        until_says(page, "#figures", "standing still for")
        page.run("fake.fault()")
        until_ended(page)
        wants_result(page, "The port failed", "the line takes no bytes")
        loader.close()
        connects_again(page, there)
