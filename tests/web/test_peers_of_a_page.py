"""The page beside peers that do what they should not, and late ones beside the module."""

import threading

import pytest
from support.cases import case, cases_in
from support.empty_page import Empty, received, sends
from support.frames import (
    ACK as ACK_BYTE,
    ACK_START,
    CANCEL,
    END,
    EOT,
    START as START_BYTE,
    block,
    header,
    place,
)
from support.page import (
    Shown,
    begin,
    begin_receiving,
    dial,
    text,
    until_ended,
    until_says,
    wants_result,
)
from support.peers import Pause, PlainReceiver, PlainSender, frames_at, receive_plainly
from support.program import folders, wants_same, wants_stored, write_files
from support.rooms import BROWSERS
from support.waits import comes, wait_for, waiting
from support.web_peers import Peer, program_receives, program_sends


START, ACK = bytes((START_BYTE,)), bytes((ACK_BYTE,))


def until_told(end, wanted):
    """Reads until these bytes have come."""
    came = b""
    while not came.endswith(wanted):
        more = end.recv(1)
        assert more, "it closed behind %r, and %r was awaited" % (came[-20:], wanted)
        came += more


def ask(end):
    """Asks for a file, each second, until something comes."""
    while not waiting(end):
        end.sendall(START)
        comes(end, 1)


def wants_none(page):
    """No file is offered to be kept."""
    assert page.run("document.querySelectorAll('#received a').length") == 0, "there is a file"


@cases_in(
    BROWSERS,
    case("page: a name with ../ is offered", b"../../etc/passwd", b"5", "has a slash"),
    case("page: the name .. is offered", b"..", b"5", "has a slash"),
    case("page: a length of 2^63 is offered", b"huge", b"%d" % 2**63, "length is too large"),
    case("page: a length of 40 digits is offered", b"huge", b"9" * 40, "length is too large"),
    case("page: a file without a length is offered", b"none", b"", "did not say how long"),
)
def test_refused(room, name, rest, why):
    """A file is offered whose name or length is refused: the page says why, and cancels."""

    def peer(end):
        until_told(end, START)
        end.sendall(header(name, rest))
        until_told(end, CANCEL)

    with Shown(room) as page, Peer(peer) as it:
        dial(page, it.bridge.address)
        begin_receiving(page)
        until_ended(page)
        wants_result(page, "A file's name or length cannot be used", why)
        wants_none(page)


@cases_in(BROWSERS, case("page: the largest length, and its sender cancels"))
def test_huge(room):
    """The largest length there is: it is told as it is, and takes no memory. The peer cancels."""
    has_looked = threading.Event()

    def peer(end):
        until_told(end, START)
        end.sendall(header(b"huge.bin", b"9223372036854775807"))
        until_told(end, ACK + START)
        number = 1
        while not has_looked.is_set():
            end.sendall(block(number, bytes(1024)))
            until_told(end, ACK)
            number += 1
        end.sendall(CANCEL)

    with Shown(room) as page, Peer(peer) as it:
        dial(page, it.bridge.address)
        begin_receiving(page)
        until_says(page, "#figures", "of 8.00 EiB")
        assert "0 %" == text(page, "#now-percent"), "it is told as %s" % text(page, "#now-percent")
        has_looked.set()
        until_ended(page)
        wants_result(page, "The device cancelled")
        wants_none(page)


PROMPT = b"## Binary (ymodem) download aborted\r\n=> "


@cases_in(BROWSERS, case("page: the receiver cancels"))
def test_cancels_a_sender(room):
    """A receiver that cancels at the second block, and prints."""

    def peer(end):
        ask(end)
        for at, _ in enumerate(frames_at(end)):
            if at == 2:
                end.sendall(CANCEL + PROMPT)
                return
            end.sendall(ACK_START if at == 0 else ACK)

    with folders() as (here, _), Shown(room) as page, Peer(peer) as it:
        dial(page, it.bridge.address)
        begin(page, write_files(here, [("a.bin", bytes(5000))]))
        until_ended(page)
        wants_result(page, "The device cancelled")
        until_says(page, "#screen", "download aborted")
        until_says(page, "#screen", "=> ")


@cases_in(BROWSERS, case("page: the receiver takes back its last ACK"))
def test_takes_back(room):
    """A receiver that acknowledges the end of the batch and cancels right behind, as U-Boot does
    where it has no file."""

    def peer(end):
        ask(end)
        for frame in frames_at(end):
            if frame == END:
                end.sendall(ACK + CANCEL)
                return
            is_opening = frame[0] == EOT or frame[1] == 0
            end.sendall(ACK_START if is_opening else ACK)

    with folders() as (here, _), Shown(room) as page, Peer(peer) as it:
        dial(page, it.bridge.address)
        begin(page, write_files(here, [("a.bin", bytes(100))]))
        until_ended(page)
        wants_result(page, "The device cancelled")


@cases_in(BROWSERS, case("page: another file begins out of step"))
def test_another_block_0(room):
    """A sender that begins another file where only a repeat of block 0 can come: the two ends are
    out of step, and nothing is taken."""

    def peer(end):
        until_told(end, START)
        end.sendall(header(b"one", b"5"))
        until_told(end, ACK + START)
        end.sendall(header(b"two", b"7"))
        until_told(end, CANCEL)

    with Shown(room) as page, Peer(peer) as it:
        dial(page, it.bridge.address)
        begin_receiving(page)
        until_ended(page)
        wants_result(page, "The two sides lost step")
        wants_none(page)


FILES = [("first", b"x" * 3000), ("second", bytes(range(100)))]


@cases_in(
    BROWSERS,
    case("sends to a receiver that answers a block 12 s late", "the first block", 12),
    case("sends to a receiver that answers an EOT 12 s late", "the EOT", 12),
)
def test_answers_late(room, where, seconds):
    """A receiver that answers one frame so late, and then the copy that has come meanwhile."""
    receiver = PlainReceiver()
    pause = Pause(place(where, FILES), seconds)
    act = lambda end: receive_plainly(end, receiver, pause=pause, copies=1)
    with Empty(room) as page, Peer(act) as it:
        sends(page, it.bridge.address, FILES)
        # the peer ends with its line
        it.bridge.is_cut.set()
    assert receiver.is_finished, "the receiver did not finish"
    wants_same(receiver.kept, dict(FILES))


@cases_in(BROWSERS, case("receives from a sender that starts late", 3))
def test_starts_late(room, asked):
    """A sender that was asked so often before it started, and answers each C by a copy of block
    0."""
    sender = PlainSender(FILES, gap=0.1)

    def act(end):
        wait_for(end, asked)
        sender.run(end)

    with Empty(room) as page, Peer(act) as it:
        wants_same(received(page, it.bridge.address), dict(FILES))
    assert sender.is_finished, "the sender did not finish"


# A port whose line takes so long each way.
DELAYED = """
tools.delayed = (port, millis) => {
  const way = () => {
    let last = Promise.resolve();
    const wait = () => new Promise((done) => setTimeout(done, millis));
    const late = (piece, to) => wait().then(() => to.enqueue(piece));
    return new TransformStream({
      transform(piece, to) { last = late(piece, to); },
      flush: () => last,
    }, { highWaterMark: 1e6 }, { highWaterMark: 1e6 });
  };
  const [there, back] = [way(), way()];
  port.readable.pipeTo(back.writable).catch(() => {});
  there.readable.pipeTo(port.writable).catch(() => {});
  return { readable: back.readable, writable: there.writable };
};
"""


def delayed(millis):
    """A script that makes each connection of the module one whose line takes so long each way."""
    return DELAYED + "tools.over = (port) => tools.delayed(port, %d);" % millis


@pytest.mark.program
@cases_in(BROWSERS, case("receives from ymodem send, 1.5 s each way"))
def test_from_program_late(room):
    with folders() as (here, _), Empty(room, delayed(1500)) as page:
        with program_sends(write_files(here, FILES)) as (bridge, ended):
            wants_same(received(page, bridge.address), dict(FILES))
            assert ended().status == 0, "ymodem send failed"


@pytest.mark.program
@cases_in(BROWSERS, case("sends to ymodem receive, 1.5 s each way"))
def test_to_program_late(room):
    with folders() as (_, there), Empty(room, delayed(1500)) as page:
        with program_receives(there) as (bridge, ended):
            sends(page, bridge.address, FILES)
            assert ended().status == 0, "ymodem receive failed"
        wants_stored(there, FILES)
