"""Ends of a transfer that are written for the tests, as plain programs are: a receiver that answers
each frame that comes, and a sender that takes one reply for each frame that it writes. They know
nothing of a line that has to clear."""

import socket
import threading
import time

from support.frames import (
    ACK,
    ACK_START,
    CAN,
    CANCEL,
    EOT,
    FRAME_LENGTHS,
    NAK,
    START,
    frames_of,
    has_frame,
    mixed,
)
from support.program import LIMIT, connected, folders, free_port, running, write_files
from support.waits import wait_for, waiting


def called(listener):
    """The connection of whoever calls, or nothing where nobody listens any more."""
    listener.settimeout(LIMIT)
    try:
        end, _ = listener.accept()
    except OSError:
        return None
    end.settimeout(LIMIT)
    return end


def send_to(peer, files, flags=(), before=(), paths=None):
    """Runs `send` against whoever answers its call so, and answers how it has ended. It sends these
    files, or those at these paths."""
    faults = []

    def answer(listener):
        try:
            end = called(listener)
            if end:
                with end:
                    peer(end)
        except Exception as fault:  # told below
            faults.append(fault)

    with folders() as (here, _), socket.create_server(("127.0.0.1", 0)) as listener:
        paths = paths or write_files(here, files)
        thread = threading.Thread(target=answer, args=(listener,), daemon=True)
        thread.start()
        with running(
            "send", "--port", listener.getsockname()[1], *flags, *paths, before=before
        ) as send:
            ended = send.ended()
        # Where it has ended without a call, nobody waits for one any more.
        listener.shutdown(socket.SHUT_RDWR)
        thread.join(LIMIT)
    assert not faults, "%r, where send told %r %r" % (faults[0], ended.out, ended.err)
    return ended


def receive_from(peer, folder, flags=()):
    """Runs `receive` with this peer, and answers how it has ended."""
    port = free_port()
    with running("receive", "--port", port, *flags, folder) as receive, connected(port) as end:
        end.settimeout(LIMIT)
        peer(end)
        return receive.ended()


class PlainReceiver:
    """Answers each frame by the table of a receiver, at once, and never asks for one but at its
    start."""

    def __init__(self, is_single=False):
        self.is_single = is_single
        self.kept = {}
        self.is_finished = False
        self.name = None

    def answer(self, frame):
        """The reply to a frame."""
        if frame[0] == EOT:
            return self.answer_to_eot()
        if self.name is None:
            return self.answer_to_header(frame)
        number, body = frame[1], frame[3:-2]
        if number == 0 and self.count == 0:
            return ACK_START
        if number == (self.count + 1) % 256:
            self.count += 1
            self.data += body
        elif number != self.count % 256:
            return CANCEL
        return bytes((ACK,))

    def answer_to_header(self, frame):
        if frame[1] != 0:
            return CANCEL
        name, _, rest = frame[3:-2].partition(b"\x00")
        if not name:
            self.is_finished = True
            return bytes((ACK,))
        self.name, self.length = name.decode(), int(rest.partition(b"\x00")[0].split()[0])
        self.count, self.data, self.is_at_second_eot = 0, b"", self.is_single
        return ACK_START

    def answer_to_eot(self):
        if self.name is None:
            return ACK_START if self.kept else bytes((START,))
        if len(self.data) < self.length:
            return bytes((NAK,))
        if not self.is_at_second_eot:
            self.is_at_second_eot = True
            return bytes((NAK,))
        self.kept[self.name] = self.data[: self.length]
        self.name = None
        return ACK_START


def frames_at(end):
    """The frames that come, one by one. What stands behind a frame stays in the connection until it
    is asked for."""
    while first := some(end, 1):
        rest = b""
        while len(first + rest) < FRAME_LENGTHS.get(first[0], 1):
            more = some(end, FRAME_LENGTHS[first[0]] - len(first + rest))
            if not more:
                return
            rest += more
        yield first + rest


def some(end, count):
    try:
        return end.recv(count)
    except ConnectionResetError:
        return b""


def tell(end, data, is_apart):
    """Writes a reply. Where the program has written more meanwhile and replies are to come apart,
    it is given half a second to read this one by itself and to write again."""
    end.sendall(data)
    before, until = waiting(end), time.monotonic() + 0.5
    while is_apart and before and waiting(end) <= before and time.monotonic() < until:
        time.sleep(0.01)


class Pause:
    """Stands still once, before the frame of this number or the answer to it, for so many seconds,
    and writes something before or behind that."""

    def __init__(self, at, seconds, before=b"", behind=b""):
        self.at, self.seconds, self.before, self.behind = at, seconds, before, behind

    def stand(self, at, end):
        if at != self.at:
            return False
        self.at = None
        end.sendall(self.before)
        time.sleep(self.seconds)
        end.sendall(self.behind)
        return True


def receive_plainly(end, receiver, pause=None, copies=0, is_apart=True, stale=None, leaves_at=None):
    """Runs such a receiver, which pauses once before an answer, and until so many copies of that
    frame have come. Where `stale` is the number of a frame, its answer came late and the receiver
    has asked for a frame meanwhile, so that a NAK stands in the line behind that answer. Where
    `leaves_at` is one, the receiver leaves there without any answer."""
    end.setsockopt(socket.IPPROTO_TCP, socket.TCP_NODELAY, 1)
    end.sendall(bytes((START,)))
    at, last = -1, b""
    for frame in frames_at(end):
        assert has_frame(frame), "the program wrote what is no frame: " + frame[:8].hex()
        if frame == CANCEL:
            return
        if frame != last:
            at, last = at + 1, frame
            if at == leaves_at:
                # long enough for a program that waits a second for more of a reply to have heard it
                time.sleep(3)
                return
        if pause and pause.stand(at, end):
            wait_for(end, copies * len(frame))
        try:
            tell(end, receiver.answer(frame), is_apart)
            if at == stale:
                stale = None
                wait_for(end, 1)
                tell(end, bytes((NAK,)), is_apart)
        except ConnectionError:
            return  # the program has ended; its report tells why


class PlainSender:
    """Writes a frame, takes a reply, and believes that this is the reply to it. It answers each C
    and each NAK by its frame, after a gap."""

    def __init__(self, files, pause=None, gap=0.0, cut=mixed):
        self.frames = frames_of(files, cut)
        self.pause = pause
        self.gap = gap
        # How long it took at most from one copy of a frame to the next one, in seconds.
        self.longest_gap = 0.0
        self.done = 0
        self.is_finished = False

    def run(self, end):
        try:
            self.send_all(end)
        except ConnectionError:
            pass  # the program has ended; its report tells why

    def send_all(self, end):
        self.wait_for_start(end)
        for at, frame in enumerate(self.frames):
            if self.pause:
                self.pause.stand(at, end)
            self.send(end, frame)
            if frame[0] == EOT:
                self.done += 1
            if frame[0] == EOT or (frame[1] == 0 and self.is_header(at)):
                self.is_finished = at == len(self.frames) - 1
                if not self.is_finished:
                    self.wait_for_start(end)

    def is_header(self, at):
        return at == 0 or self.frames[at - 1][0] == EOT

    def reply(self, end):
        byte = end.recv(1)
        if not byte or byte[0] == CAN:
            raise ConnectionAbortedError
        return byte[0]

    def wait_for_start(self, end):
        while self.reply(end) != START:
            pass

    def send(self, end, frame):
        """Writes a frame until it is acknowledged."""
        end.sendall(frame)
        asked = None
        while self.reply(end) != ACK:
            begun = asked or time.monotonic()
            time.sleep(self.gap)
            end.sendall(frame)
            asked = time.monotonic()
            self.longest_gap = max(self.longest_gap, asked - begun)
