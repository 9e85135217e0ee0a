"""How fast a transfer goes in a page. Rates are noted; they are judged where that is asked for, on
a machine that has nothing else to do: on one that has other work a rate says nothing of the page.
Beside each rate over a WebSocket stands that of the same bytes, exchanged in the same way without
any protocol: no page can be faster than that there."""

import json
import random
import socket
import threading

import pytest
from support.bridge import Bridge
from support.cases import case, cases_in
from support.empty_page import Empty
from support.program import folders, write_files
from support.rooms import BROWSERS
from support.skipping import needs
from support.web_peers import lrzsz


# MiB a second: over a WebSocket, and with both ends in one page.
LEAST = 4
LEAST_IN_ONE_PAGE = 20
FRAME = 1029


class Rates:
    """The best of each rate that was measured, in some tries where it is judged, since the machine
    may be busy for a while; else in one, of a smaller file."""

    def __init__(self, room):
        self.room, self.best = room, {}
        # MiB
        self.size, self.tries = (8, 12) if room.are_rates_wanted else (2, 1)

    def add(self, what, rate):
        self.best[what] = max(rate, self.best.get(what, 0))

    def end(self, what, text, least):
        """Notes what was measured, and judges one of it."""
        self.room.note("%s, %s" % (self.room.browser.name, text % self.best))
        is_quick = self.best[what] >= least
        assert is_quick or not self.room.are_rates_wanted, "%.1f MiB/s" % self.best[what]


# From the moment at which the file begins to the one at which all of it is there. Behind it come
# the EOT, the end block and the moment behind the last ACK, as behind any file.
IN_ONE_PAGE = """(async () => {
  const [here, there] = tools.pair();
  const data = new Uint8Array(%d << 20);
  let began = 0, end = 0;
  const sink = { write() {}, close() { end = performance.now(); } };
  const onFile = () => { began = performance.now(); return sink; };
  await Promise.all([y.send(here, [{ name: "big", data }]), y.receive(there, { onFile })]);
  return %d / ((end - began) / 1000);
})()"""

FROM_SB = """(async () => {
  const port = await y.openWebSocket(%s);
  let began = 0, end = 0;
  await y.receive(port, { onFile: () => { began = performance.now(); return { write() {}, close() { end = performance.now(); } }; } });
  port.close();
  return %d / ((end - began) / 1000);
})()"""

TO_RB = """(async () => {
  const port = await y.openWebSocket(%s);
  const files = [{ name: "big", data: new Uint8Array(%d << 20) }];
  let began = 0, end = 0;
  const onProgress = ({ bytes, length }) => {
    if (bytes === 0) began = performance.now();
    if (end === 0 && bytes >= length - 1024) end = performance.now();
  };
  await y.send(port, files, { onProgress });
  return %d / ((end - began) / 1000);
})()"""

BARE = """(async () => {
  const socket = new WebSocket(%s), back = Uint8Array.of(6);
  socket.binaryType = "arraybuffer";
  let began = 0;
  await new Promise((done) => {
    socket.onmessage = () => { began ||= performance.now(); socket.send(back); };
    socket.onclose = done;
  });
  return %d / ((performance.now() - began) / 1000);
})()"""


@pytest.mark.alone
@cases_in(BROWSERS, case("the rate of both ends in one page"))
def test_in_one_page(room):
    rates = Rates(room)
    with Empty(room) as page:
        for _ in range(rates.tries):
            rates.add("both", page.run(IN_ONE_PAGE % (rates.size, rates.size)))
            if rates.best["both"] >= LEAST_IN_ONE_PAGE:
                break
    rates.end("both", "both ends in one page: %(both).1f MiB/s", LEAST_IN_ONE_PAGE)


def exchange(page, size):
    """The rate of so many MiB in frames, and bytes that answer them."""
    near, far = socket.socketpair()

    def peer():
        with near:
            for _ in range(size << 10):
                near.sendall(bytes(FRAME))
                near.recv(1)

    bridge = Bridge(lambda: far)
    threading.Thread(target=peer, daemon=True).start()
    return page.run(BARE % (json.dumps(bridge.address), size))


@pytest.mark.alone
@cases_in(BROWSERS, case("the rates from sb and to rb over a WebSocket"))
def test_over_socket(room):
    """From `sb`, and to `rb`."""
    needs("sb", "rb")
    rates = Rates(room)
    with folders() as (here, there), Empty(room) as page:
        write_files(here, [("big", random.Random(5).randbytes(rates.size << 20))])
        for _ in range(rates.tries):
            rates.add("bare", exchange(page, rates.size))
            with lrzsz(["sb", "-q", "-k", "big"], here) as (bridge, _):
                rates.add("sb", page.run(FROM_SB % (json.dumps(bridge.address), rates.size)))
            with lrzsz(["rb", "-q", "-y"], there) as (bridge, _):
                rates.add(
                    "rb", page.run(TO_RB % (json.dumps(bridge.address), rates.size, rates.size))
                )
            if rates.best["sb"] >= LEAST:
                break
    told = "over a WebSocket: from sb %(sb).1f MiB/s, to rb %(rb).1f"
    rates.end("sb", told + ", the same bytes without a protocol %(bare).1f", LEAST)
