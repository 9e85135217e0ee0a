#!/usr/bin/env python3
"""Records sessions between real senders and receivers of files, over lines that spoil them: the
data of test_sessions_told.py.

usage: record_sessions.py [WORD..]
  WORD        only the sessions whose names have one of these words

Each session is a file NAME.record in tests/explain/sessions: a line for each piece that passed,
`SECONDS > HEX` from the sender to the receiver and `SECONDS < HEX` back, as the recorder saw it.
The sentence that has to be told of it stands in SESSIONS, and follows from what was done to the
line, or from who stood at its ends. It is written into the first line of the record, behind `# `.
Needs the program, lrzsz, U-Boot in QEMU (tools/packages.sh), and python3-xmodem.
"""

import os
import random
import selectors
import sys
import time

sys.dont_write_bytecode = True
HERE = os.path.dirname(os.path.abspath(__file__))
sys.path.insert(0, os.path.dirname(HERE))

from support.explained import DATA
from support.recorded_ends import LOADY, board, nobody, our_receiver, our_sender, piped

WHOLE = "the session is whole: nothing went wrong"
MENDED = "the session is whole: what came damaged was sent again"
NOBODY_ASKED = "no receiver asked for a file: start one, and see that its line is connected"
EOT_ALONE = "EOT came and no block: start both ends again, and record from before they start"
NOBODY_ANSWERED = "the receiver asked and no frame came: start the sender"
ECHO = "what the sender wrote came back: start the receiver at the other end first"
FLOW = "frames came short, and no 11 or 13 in them: turn XON/XOFF off at both ends and between them"
SUB = "frames came short, and no 1A in them: set the line to raw, so that it carries every byte"
SEVEN = "only seven bits of each byte came: set the line to eight bits and no parity"
SPEED = "bytes came, no text and no frame: set both ends to the same speed"
AHEAD = "the receiver acknowledged what was not sent yet: start both ends again"
ZMODEM = "an end speaks ZMODEM: start it with sb or rb in place of sz or rz"
XMODEM = "the sender names no file, as XMODEM does: start it as a sender of YMODEM"
XMODEM_RECEIVER = "the receiver asks by NAK, as XMODEM does: start it as a receiver of YMODEM"
YMODEM_G = "the receiver asks by G, as YMODEM-g does: start it as a receiver of YMODEM"
NO_ROOM = "block 0 had no room for the whole length: send the file under a shorter name"
TOO_MANY = "ten frames in a row were refused: try a lower speed or a better line"
SENDER = "the sender cancelled: see what it says"
RECEIVER = "the receiver cancelled: see what it says, and whether it can write the file"
STOPPED = "the session stopped before its end: see whether the line was cut or an end was closed"


class Line:
    """A line between two ends. What comes one way is changed by `there`, and the other way by
    `back`: functions of bytes. The record has what the other end got."""

    def __init__(self, there=None, back=None):
        self.there = there or (lambda data: data)
        self.back = back or (lambda data: data)
        self.lines, self.passed, self.began = [], 0, time.monotonic()

    def note(self, way, data):
        if data:
            self.passed += len(data)
            self.lines.append("%.6f %s %s" % (time.monotonic() - self.began, way, data.hex()))


class Late(Line):
    """A line of which the record begins with the EOT of a file."""

    def note(self, way, data):
        if self.lines or data == b"\x04":
            super().note(way, data)


def carry(line, sender, receiver, seconds, then=None):
    """Carries what both write until both have ended, or the time is over. `then` may do more each
    turn."""
    until = time.monotonic() + seconds
    open_ends = selectors.DefaultSelector()
    for end, way in ((sender, ">"), (receiver, "<")):
        if end.fileno() is not None:
            open_ends.register(end.fileno(), selectors.EVENT_READ, (end, way))
    while open_ends.get_map() and time.monotonic() < until:
        if then:
            then(line, sender, receiver)
        for key, _ in open_ends.select(0.05):
            end, way = key.data
            data = end.read()
            if not data:
                open_ends.unregister(key.fileobj)
                continue
            data = (line.there if way == ">" else line.back)(data)
            line.note(way, data)
            (receiver if way == ">" else sender).give(data)
    open_ends.close()


def between(send, receive, line=None, files=None, seconds=60, then=None):
    """The record of a session between these ends, either of which may be nobody."""
    line = line or Line()
    with send(files or FILES) as sender, receive([]) as receiver:
        line.began = time.monotonic()
        carry(line, sender, receiver, seconds, then)
    return line.lines


def some_bytes(seed, size):
    return random.Random(seed).randbytes(size)


FILES = [("real.txt", some_bytes(1, 3000))]
SB, SB_LONG, RB = piped("sb", "-q"), piped("sb", "-q", "-k"), piped("rb", "-q")


def dropping(codes):
    return lambda data: bytes(it for it in data if it not in codes)


def seven_bits(data):
    return bytes(it & 0x7F for it in data)


class Sampled:
    """What a receiver at one speed makes of bytes that were sent at another: each byte is a start
    bit, eight bits from the lowest on, and a stop bit, and is sampled in the middle of each bit."""

    def __init__(self, sent, read):
        self.sent, self.read = sent, read

    def __call__(self, data):
        levels = []
        for it in data:
            levels += [0] + [it >> bit & 1 for bit in range(8)] + [1]
        levels += [1] * 20

        def level(at):
            place = int(at * self.sent)
            return levels[place] if place < len(levels) else 1

        got, at, end = [], 0.0, len(levels) / self.sent
        while at < end:
            if level(at):
                at += 0.05 / self.read
                continue
            bits = [level(at + (1.5 + bit) / self.read) for bit in range(8)]
            got.append(sum(bit << place for place, bit in enumerate(bits)))
            at += 9.5 / self.read
        return bytes(got)


class Noise:
    """Flips a bit of each block that `picks`, counted from 0."""

    def __init__(self, picks):
        self.picks, self.count = picks, -1

    def __call__(self, data):
        if len(data) < 100:
            return data
        self.count += 1
        if not self.picks(self.count):
            return data
        spoiled = bytearray(data)
        spoiled[60] ^= 4
        return bytes(spoiled)


class Doubled:
    """Sends the ACK of one number twice."""

    def __init__(self, number):
        self.number, self.count = number, 0

    def __call__(self, data):
        self.count += data.count(b"\x06")
        if self.count == self.number:
            self.count += 1
            return data.replace(b"\x06", b"\x06\x06")
        return data


class Unheard:
    """Loses each ACK from this number on."""

    def __init__(self, number):
        self.number, self.count = number, 0

    def __call__(self, data):
        self.count += data.count(b"\x06")
        return data.replace(b"\x06", b"") if self.count >= self.number else data


class TakenBack:
    """Sends CAN CAN right behind the ACK of one number, as a receiver does that takes it back."""

    def __init__(self, number):
        self.number, self.count = number, 0

    def __call__(self, data):
        before, self.count = self.count, self.count + data.count(b"\x06")
        if before < self.number <= self.count:
            return data + b"\x18\x18"
        return data


def echoed(sender, wait=0.0, seconds=3):
    """A sender that was asked by mistake, on a line where what it writes comes back."""
    line = Line()

    def then(line, sender, _):
        if not line.lines:
            line.note("<", b"C")
            sender.give(b"C")

    def there(data):
        line.note(">", data)
        time.sleep(wait)
        line.note("<", data)
        return b""

    line.there = there
    return between(sender, nobody, line, seconds=seconds, then=then)


def interrupted(who, after):
    """An end that is interrupted once so many bytes have passed: sb and rb then cancel."""
    done = []

    def then(line, sender, receiver):
        if not done and line.passed > after:
            done.append(True)
            (sender if who == "sender" else receiver).interrupt()

    return then


def slowly(data):
    time.sleep(0.05)
    return data


FLOW_EATEN, SUB_EATEN = dropping(b"\x11\x13"), dropping(b"\x1a")
LATE_SENDER = piped("sh", "-c", 'sleep 6; exec sb -q "$@"', "sb")
SHELL = piped("sh", "-c", "printf 'login: '; sleep 2; printf '\\r\\nPassword: '; sleep 1")
# It asks as a receiver of YMODEM-g does, and answers no block.
BY_G = piped("sh", "-c", "for _ in 1 2 3; do printf G; sleep 1; done")
KILLED = piped("timeout", "-s", "KILL", "2", "sb", "-q")
# One session behind another on one line.
SB_TWICE = piped("sh", "-c", 'sb -q "$@"; exec sb -q "$@"', "sb")
SB_KILLED_SECOND = piped("sh", "-c", 'sb -q "$@"; exec timeout -s KILL 2 sb -q "$@"', "sb")
RB_TWICE = piped("sh", "-c", "rb -q -y; exec rb -q -y")
# Debian's python3 has its modules, whichever runs this.
XMODEM_END = ("/usr/bin/python3", os.path.join(HERE, "xmodem_end.py"))


def named(length):
    """A file whose name has so many bytes."""
    return [("n" * length, some_bytes(length, 12345))]


def every_fifth(count):
    return count % 5 == 2


def long_file(seed):
    return [("a", some_bytes(seed, 3000))]


def speeds(sent, read):
    """A sender at one speed and a receiver at another one."""
    return Line(Sampled(sent, read), Sampled(read, sent))


def broken_off(who, send, seed, size, after):
    """A session of a file of this size in which one end is interrupted behind so many bytes."""
    files = [("a", some_bytes(seed, size))]
    return between(send, RB, Line(slowly), files, 30, interrupted(who, after))


SESSIONS = {
    # nothing wrong
    "whole": (WHOLE, lambda: between(SB, RB)),
    "whole-short-blocks": (
        WHOLE,
        lambda: between(
            SB, RB, files=[("a", some_bytes(2, 200)), ("b", b""), ("c", some_bytes(3, 128))]
        ),
    ),
    "whole-1k": (WHOLE, lambda: between(SB_LONG, RB, files=[("a", some_bytes(4, 9000))])),
    "whole-receive-asks-late": (WHOLE, lambda: between(LATE_SENDER, RB)),
    "whole-own-sender": (WHOLE, lambda: between(our_sender, RB)),
    "whole-own-receiver": (WHOLE, lambda: between(SB, our_receiver)),
    "whole-u-boot": (WHOLE, lambda: between(SB, board(LOADY), seconds=30)),
    "whole-u-boot-own-sender": (WHOLE, lambda: between(our_sender, board(LOADY), seconds=30)),
    "whole-twice": (WHOLE, lambda: between(SB_TWICE, RB_TWICE)),
    # a peer that is not there
    "nobody-answered": (NOBODY_ANSWERED, lambda: between(nobody, RB, seconds=8)),
    "nobody-answered-own": (NOBODY_ANSWERED, lambda: between(nobody, our_receiver, seconds=12)),
    "nobody-answered-u-boot": (NOBODY_ANSWERED, lambda: between(nobody, board(LOADY), seconds=8)),
    "nobody-asked": (NOBODY_ASKED, lambda: between(piped("sb"), nobody, seconds=3)),
    "nobody-asked-shell": (NOBODY_ASKED, lambda: between(SB, SHELL, seconds=5)),
    "nobody-asked-u-boot": (NOBODY_ASKED, lambda: between(SB, board("echo ready"), seconds=5)),
    # a sender at the end of its file
    "eot-alone": (EOT_ALONE, lambda: between(SB, RB, Late(back=Unheard(26)), seconds=40)),
    # what is written comes back
    "echo": (ECHO, lambda: echoed(SB)),
    "echo-1k": (ECHO, lambda: echoed(SB_LONG)),
    "echo-own": (ECHO, lambda: echoed(our_sender)),
    "echo-late": (ECHO, lambda: echoed(SB, wait=0.5)),
    # bytes that a line keeps for itself
    "eats-11-13": (
        FLOW,
        lambda: between(SB_LONG, RB, Line(FLOW_EATEN, FLOW_EATEN), files=long_file(5), seconds=40),
    ),
    "eats-11-13-own": (
        FLOW,
        lambda: between(
            our_sender, our_receiver, Line(FLOW_EATEN, FLOW_EATEN), files=long_file(5), seconds=40
        ),
    ),
    "eats-1a": (
        SUB,
        lambda: between(SB, RB, Line(SUB_EATEN), files=[("a", some_bytes(6, 1000))], seconds=40),
    ),
    "eats-1a-own": (
        SUB,
        lambda: between(
            our_sender,
            our_receiver,
            Line(SUB_EATEN),
            files=[("a", some_bytes(6, 1000))],
            seconds=40,
        ),
    ),
    # seven bits of each byte
    "seven-bits": (SEVEN, lambda: between(SB, RB, Line(seven_bits, seven_bits), seconds=30)),
    "seven-bits-1k": (
        SEVEN,
        lambda: between(SB_LONG, RB, Line(seven_bits, seven_bits), seconds=30),
    ),
    "seven-bits-one-way": (SEVEN, lambda: between(SB, RB, Line(seven_bits), seconds=30)),
    "seven-bits-own": (
        SEVEN,
        lambda: between(our_sender, our_receiver, Line(seven_bits, seven_bits), seconds=40),
    ),
    # two speeds
    "other-speed-sender": (SPEED, lambda: between(SB, RB, speeds(115200, 9600), seconds=12)),
    "other-speed-receiver": (
        SPEED,
        lambda: between(piped("sx", "-q"), RB, Line(Sampled(9600, 115200)), seconds=12),
    ),
    "other-speed-twice": (SPEED, lambda: between(SB, RB, speeds(9600, 19200), seconds=12)),
    "other-speed-own": (
        SPEED,
        lambda: between(our_sender, our_receiver, speeds(38400, 57600), seconds=30),
    ),
    # a reply too many
    "reply-ahead": (
        AHEAD,
        lambda: between(SB, RB, Line(Noise(lambda count: count > 12), Doubled(4)), seconds=60),
    ),
    "reply-ahead-early": (
        AHEAD,
        lambda: between(SB, RB, Line(Noise(lambda count: count > 12), Doubled(3)), seconds=60),
    ),
    "reply-ahead-late": (
        AHEAD,
        lambda: between(SB, RB, Line(Noise(lambda count: count > 14), Doubled(9)), seconds=60),
    ),
    "reply-ahead-1k": (
        AHEAD,
        lambda: between(
            SB_LONG,
            RB,
            Line(Noise(lambda count: count > 6), Doubled(4)),
            files=[("a", some_bytes(12, 16000))],
            seconds=60,
        ),
    ),
    # another protocol
    "zmodem-sender": (ZMODEM, lambda: between(piped("sz", "-q"), nobody, seconds=4)),
    "zmodem-receiver": (ZMODEM, lambda: between(SB, piped("rz", "-q"), seconds=3)),
    "xmodem-sender": (XMODEM, lambda: between(piped("sx", "-q"), RB, seconds=20)),
    "xmodem-sender-python": (XMODEM, lambda: between(piped(*XMODEM_END, "send"), RB, seconds=20)),
    "xmodem-receiver": (
        XMODEM_RECEIVER,
        lambda: between(nobody, piped("rx", "-q", "got"), seconds=25),
    ),
    "xmodem-receiver-python": (
        XMODEM_RECEIVER,
        lambda: between(nobody, piped(*XMODEM_END, "receive", "got"), seconds=20),
    ),
    "ymodem-g-receiver": (YMODEM_G, lambda: between(nobody, BY_G, seconds=5)),
    "ymodem-g-receiver-sb": (YMODEM_G, lambda: between(SB, BY_G, seconds=10)),
    # a length that is not that of the file
    "no-room-for-length": (NO_ROOM, lambda: between(SB, RB, files=named(124), seconds=60)),
    "no-room-for-two-digits": (NO_ROOM, lambda: between(SB, RB, files=named(123), seconds=60)),
    "no-room-for-three-digits": (NO_ROOM, lambda: between(SB, RB, files=named(122), seconds=60)),
    "no-room-for-length-own": (
        NO_ROOM,
        lambda: between(SB, our_receiver, files=named(124), seconds=60),
    ),
    # noise
    "damage-mended": (MENDED, lambda: between(SB, RB, Line(Noise(every_fifth)), seconds=60)),
    "damage-mended-own": (
        MENDED,
        lambda: between(our_sender, our_receiver, Line(Noise(every_fifth)), seconds=60),
    ),
    "damage-mended-u-boot": (
        MENDED,
        lambda: between(SB, board(LOADY), Line(Noise(every_fifth)), seconds=60),
    ),
    "damage": (
        TOO_MANY,
        lambda: between(SB, RB, Line(Noise(lambda count: count > 4)), seconds=120),
    ),
    # an end that goes away
    "sender-cancels": (SENDER, lambda: broken_off("sender", SB, 8, 30000, 5000)),
    "sender-cancels-1k": (SENDER, lambda: broken_off("sender", SB_LONG, 11, 60000, 9000)),
    "receiver-cancels": (RECEIVER, lambda: broken_off("receiver", SB, 9, 30000, 5000)),
    "receiver-cancels-at-end": (RECEIVER, lambda: between(SB, RB, Line(back=TakenBack(27)))),
    "sender-killed": (
        STOPPED,
        lambda: between(KILLED, RB, Line(slowly), files=[("a", some_bytes(10, 60000))], seconds=8),
    ),
    "sender-killed-second": (
        STOPPED,
        lambda: between(SB_KILLED_SECOND, RB_TWICE, Line(slowly), seconds=20),
    ),
}


def main(words):
    os.makedirs(DATA, exist_ok=True)
    for name, (sentence, made) in SESSIONS.items():
        if words and not any(word in name for word in words):
            continue
        lines = made()
        with open(os.path.join(DATA, name + ".record"), "w", encoding="ascii") as it:
            it.write("# %s\n" % sentence + "".join(line + "\n" for line in lines))
        print("%s: %d lines" % (name, len(lines)), flush=True)
    return 0


if __name__ == "__main__":
    sys.exit(main(sys.argv[1:]))
