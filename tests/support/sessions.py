"""A transfer over a line with time: real ends, and between them two ways that delay, pace, damage
and echo bytes as lines do.

All sessions of a run share one event loop, and most of them wait most of the time: hundreds run
side by side. What a line does to a byte comes of the session's seed, and of the frame that the byte
belongs to or answers, not of when it came. So two senders of the same blocks meet the same damage,
also where one of them was answered otherwise before.
"""

import asyncio
import contextlib
import os
import random
import socket
import tempfile
import time

from support.cable import Plug, ticking
from support.claims import Claim, claim_of_receive, claim_of_send, wants_true
from support.program import PROGRAM, Ending, free_port, stored, write_files
from support.relay import at_once


# A session that takes longer than this is stopped; it shows nothing but that.
LIMIT = 1500

# The ends that are ours: over connections, and on terminals. `sb` and `rb` alone are lrzsz's.
SOCKETS = ("send", "receive")
TERMINALS = ("ymodem sb", "ymodem rb")
OURS = SOCKETS + TERMINALS
# The bytes of a block's body, by its first one: SOH or STX. Any other byte is a frame of its own.
BODIES = {1: 128, 2: 1024}
# The bytes of its parts.
HEAD, PART, CHECK = 3, 128, 2
# The name of block 0.
OPENING = b"\x01\x00"
# `sb` of lrzsz has short blocks, and long ones where it is asked for them.
LRZSZ_SENDERS = ("sb", "sb -k")


class Shape:
    """What a way does to its bytes: seconds of delay and of jitter, in order; the chance of each
    byte to be lost, flipped or doubled; bytes a second."""

    def __init__(self, delay=0.0, jitter=0.0, lost=0.0, flipped=0.0, doubled=0.0, rate=0.0):
        self.delay, self.jitter, self.rate = delay, jitter, rate
        self.lost, self.flipped, self.doubled = lost, flipped, doubled

    def is_noisy(self):
        return self.lost or self.flipped or self.doubled


class Frames:
    """The frames that a sender writes, and what of them a byte belongs to: a part of a file, or a
    frame's head or check, and which copy of it.

    A long block has the same parts as eight short ones. So senders that cut a file's end in
    different blocks meet the same damage there."""

    def __init__(self):
        self.file = self.copy = self.next_at = 0
        self.name = self.first = b""
        self.lengths, self.parts, self.left = [], 1, 0

    def place(self):
        place = "file %d, copy %d" % (self.file, self.copy)
        if len(self.lengths) in (0, self.parts - 1):
            return "%s, frame %s, %d" % (place, self.name.hex(), len(self.lengths))
        return "%s, from %d" % (place, self.next_at - PART * len(self.lengths))

    def begin(self, data):
        name = data[:2] if data[0] in BODIES else data[:1]
        is_repeat, body = name == self.name, BODIES.get(data[0])
        self.copy = self.copy + 1 if is_repeat else 0
        if name == OPENING and not is_repeat:
            self.file, self.next_at = self.file + 1, -PART
        if body and not is_repeat:
            self.next_at += body
        self.name = name
        self.lengths = [HEAD, *[PART] * (body // PART), CHECK] if body else [1]
        self.parts = len(self.lengths)

    def pieces(self, data):
        """These bytes, cut where a part begins: `place` is that of the piece. The first byte of a
        block is kept until the second one is there."""
        data, self.first = self.first + data, b""
        while data:
            if not self.lengths and not self.left and len(data) == 1 and data[0] in BODIES:
                self.first = data
                return
            if not self.left:
                if not self.lengths:
                    self.begin(data)
                self.left = self.lengths.pop(0)
            piece, data = data[: self.left], data[self.left :]
            self.left -= len(piece)
            yield piece


class Noise:
    """What a way does to the bytes of a frame, or to those that are said behind it: by the seed
    and the place."""

    def __init__(self, shape, seed, frames):
        self.shape, self.seed, self.frames = shape, seed, frames
        self.place = self.random = None

    def damaged(self, data):
        """What becomes of these bytes. Three numbers are drawn for each of them."""
        shape, made = self.shape, bytearray()
        place = "%d, %s" % (self.seed, self.frames.place())
        if place != self.place:
            self.place, self.random = place, random.Random(place)
        for byte in data:
            chance, bit, again = (
                self.random.random(),
                self.random.randrange(8),
                self.random.random(),
            )
            if chance < shape.lost:
                continue
            made.append(byte ^ 1 << bit if chance < shape.lost + shape.flipped else byte)
            if again < shape.doubled:
                made.append(byte)
        return bytes(made)


class Way:
    """One way of a line. It hands on in order, each piece no sooner than it is due. `frames` are
    those that are written here, or that what is written here answers."""

    def __init__(self, shape, seed, frames, stall=None):
        self.shape, self.random, self.stall = shape, random.Random(seed), stall
        self.noise = Noise(shape, seed, frames)
        self.queue = asyncio.Queue()
        self.due = self.free = 0.0
        self.writes = 0

    def pieces(self, data):
        return (data,)

    def damaged(self, data):
        if not self.shape.is_noisy():
            return data
        return b"".join(self.noise.damaged(piece) for piece in self.pieces(data))

    def take(self, data):
        """Takes what an end wrote. Nothing at all says that it closed."""
        now = time.monotonic()
        held = 0.0
        if data:
            self.writes += 1
            if self.stall and self.stall[0] == self.writes:
                held = self.stall[1]
        begins = max(self.free, now + held)
        self.free = begins + (len(data) / self.shape.rate if self.shape.rate else 0.0)
        self.due = max(
            self.due, self.free + self.shape.delay + self.random.uniform(0, self.shape.jitter)
        )
        self.queue.put_nowait((self.due, self.damaged(data) if data else None))

    async def hand(self, target):
        """Hands on to this end until the other one has closed."""
        while True:
            due, data = await self.queue.get()
            await asyncio.sleep(max(0.0, due - time.monotonic()))
            if data is None:
                with contextlib.suppress(OSError, RuntimeError):
                    target.close()
                return
            if data:
                target.write(data)


class There(Way):
    """That on which a sender writes."""

    def pieces(self, data):
        return self.noise.frames.pieces(data)


class Line:
    """Both ways, and what is echoed: `there` what the sender writes comes back to it from the
    receiver's end, `back` the other way round."""

    def __init__(self, there=None, back=None, seed=0, echo="", cut=None, stall=None):
        who, *at = stall or ("",)
        frames = Frames()
        shapes = there or Shape(), back or there or Shape()
        self.there = There(shapes[0], seed * 2, frames, at if who == "sender" else None)
        self.back = Way(shapes[1], seed * 2 + 1, frames, at if who == "receiver" else None)
        self.echo, self.cut = echo, cut
        self.began = None  # when an end wrote first

    async def pump(self, reader, way, other, is_echoed):
        while True:
            try:
                data = await reader.read(65536)
            except ConnectionError:
                data = b""
            self.began = self.began or time.monotonic()
            way.take(data)
            if not data:
                return
            if is_echoed:
                other.take(data[: self.cut])

    async def carry(self, sender, receiver):
        """Carries until both ends have closed."""
        (from_sender, to_sender), (from_receiver, to_receiver) = sender, receiver
        await asyncio.gather(
            self.pump(from_sender, self.there, self.back, "there" in self.echo),
            self.pump(from_receiver, self.back, self.there, "back" in self.echo),
            self.there.hand(to_receiver),
            self.back.hand(to_sender),
            return_exceptions=True,
        )


class End:
    """An end that runs: its process, the two streams of its line, and what closes that."""

    def __init__(self, process, streams, close=lambda: None):
        self.process, self.streams, self.close = process, streams, close
        self.began = time.monotonic()

    async def ended(self, words):
        out, err = await asyncio.gather(taken(self.process.stdout), taken(self.process.stderr))
        status = await self.process.wait()
        return Ending(
            words, status, out.decode(), err.decode(errors="replace"), time.monotonic() - self.began
        )


async def taken(stream):
    return await stream.read() if stream else b""


PIPE = asyncio.subprocess.PIPE


async def started(*words, stdin=asyncio.subprocess.DEVNULL, stdout=PIPE, cwd=None):
    return await asyncio.create_subprocess_exec(
        *map(str, words), stdin=stdin, stdout=stdout, stderr=PIPE, cwd=cwd
    )


@contextlib.asynccontextmanager
async def listening():
    """A port of this process, and the streams of the first one that calls it."""
    called = asyncio.get_running_loop().create_future()
    server = await asyncio.start_server(
        lambda *streams: called.done() or called.set_result(streams), "127.0.0.1", 0
    )
    with contextlib.closing(server):
        yield server.sockets[0].getsockname()[1], called


async def send_end(flags, paths):
    """`send`, which calls a port: the connection is the line."""
    async with listening() as (port, called):
        process = await started(PROGRAM, "send", "--port", port, *flags, *paths)
        return End(process, await asyncio.wait_for(called, LIMIT))


async def receive_end(flags, folder):
    """`receive`, which listens."""
    port = free_port()
    process = await started(PROGRAM, "receive", "--port", port, *flags, folder)
    while True:
        try:
            return End(process, await asyncio.open_connection("127.0.0.1", port))
        except ConnectionRefusedError:
            await asyncio.sleep(0.01)


async def connected_end(*words, cwd=None):
    """An end whose standard input and output are a connection, which is a line as quick as that of
    `send`."""
    async with listening() as (port, called):
        with socket.create_connection(("127.0.0.1", port)) as line:
            at_once(line)
            line.settimeout(None)
            process = await started(*words, stdin=line, stdout=line, cwd=cwd)
        return End(process, await called)


async def terminal_end(word, *words):
    """`sb` or `rb` of the program, on a terminal. Nobody tells the other end that it has ended."""
    plug, reader, loop = Plug(), asyncio.StreamReader(), asyncio.get_running_loop()
    ticking(plug.outer)
    ends = [os.fdopen(os.dup(plug.inner), mode, 0) for mode in ("rb", "wb")]
    coming, _ = await loop.connect_read_pipe(lambda: asyncio.StreamReaderProtocol(reader), ends[0])
    going, _ = await loop.connect_write_pipe(asyncio.BaseProtocol, ends[1])

    def close():
        coming.close()
        if not going.is_closing():
            going.abort()
        plug.pull()

    return End(await started(PROGRAM, word, "--line", plug.path, *words), (reader, going), close)


async def sender(who, flags, paths):
    if who in LRZSZ_SENDERS:
        return await connected_end(*who.split(), *paths)
    if who in TERMINALS:
        return await terminal_end("sb", *flags, *paths)
    return await send_end(flags, paths)


async def receiver(who, flags, folder):
    if who == "rb":
        return await connected_end("rb", "-y", cwd=folder)
    if who in TERMINALS:
        return await terminal_end("rb", *flags, folder)
    return await receive_end(flags, folder)


class Outcome:
    """How a session came out. Its seconds are those since an end wrote first: until then it waits
    for the programs of other sessions to be started, some longer than others."""

    def __init__(self, seconds, is_whole, fault, told):
        self.seconds, self.is_whole, self.fault, self.told = seconds, is_whole, fault, told


async def session(files, line, ends=SOCKETS, flags=((), ()), late=("", 0)):
    """Runs both ends over this line, `late` the one of them that starts so many seconds after the
    other, and judges what both say in the end."""
    with tempfile.TemporaryDirectory(prefix="ymodem-") as top:
        here, there = os.path.join(top, "here"), os.path.join(top, "there")
        os.mkdir(here)
        os.mkdir(there)
        paths = write_files(here, files)
        began = time.monotonic()

        async def begun(end, who):
            if late[0] == who:
                await asyncio.sleep(late[1])
            return await end

        both = await asyncio.gather(
            begun(sender(ends[0], flags[0], paths), "sender"),
            begun(receiver(ends[1], flags[1], there), "receiver"),
        )
        carried = asyncio.ensure_future(line.carry(both[0].streams, both[1].streams))
        try:
            endings = await asyncio.wait_for(
                asyncio.gather(*(end.ended((who,)) for end, who in zip(both, ends))), LIMIT
            )
        except asyncio.TimeoutError:
            return Outcome(LIMIT, False, None, "stopped")
        finally:
            for end in both:
                with contextlib.suppress(ProcessLookupError):
                    end.process.kill()
                end.close()
            carried.cancel()
        seconds = time.monotonic() - (line.began or began)
        return judged(files, there, endings, ends, seconds)


def judged(files, folder, endings, ends, seconds):
    kept = {name: data for name, data in stored(folder).items() if not name.endswith(".part")}
    # what `rb` leaves of a file that it did not finish is no file that anybody reports
    if ends[1] == "rb":
        kept = {name: data for name, data in kept.items() if dict(files).get(name) == data}
    told = " | ".join((it.out.splitlines() or [""])[-1] for it in endings)
    try:
        claims = [
            claim_of_send(endings[0]) if ends[0] in OURS else Claim("sb", not endings[0].status),
            (
                claim_of_receive(endings[1], files)
                if ends[1] in OURS
                else Claim("rb", not endings[1].status)
            ),
        ]
        # what lrzsz says of itself is its own
        wants_true(files, kept, [claim for claim, who in zip(claims, ends) if who in OURS])
    except AssertionError as fault:
        return Outcome(seconds, False, str(fault) or "a report is false", told)
    return Outcome(
        seconds, kept == dict(files) and all(claim.is_finished for claim in claims), None, told
    )
