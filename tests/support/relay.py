"""A line between a sender and a receiver that a test can damage.

The relay listens where the sender connects, and connects to where the receiver listens. It takes
what the sender writes frame by frame, and what the receiver writes reply by reply, and hands on
what its line makes of each. A line respects what the program may ask of one: a damaged frame never
begins with a whole frame, and the control bytes of a damaged reply are a part of that reply, in its
order.

Each bad delivery costs both ends seconds, in which they let the line clear: so a line that damages
at random does it a stated number of times at most.
"""

import random
import select
import socket
import threading

from support.frames import ACK, CONTROLS, DELIVERY, EOT, START, has_frame, split
from support.program import LIMIT, connected


NOISE = bytes(set(range(256)) - set(CONTROLS))

# Behind so many bytes that are no control byte a sender hears no ACK.
OTHERS = 4


def heard_of(reply):
    """The control bytes of a reply that a sender hears."""
    heard, others = b"", 0
    for byte in reply:
        if byte not in CONTROLS:
            others += 1
        elif byte != ACK or others < OTHERS:
            heard += bytes((byte,))
    return heard


class Clean:
    """A line that hands on what it gets. Other lines change what they say otherwise."""

    def there(self, frame):
        """What the receiver gets of a frame."""
        return frame

    def back(self, reply):
        """What the sender gets of a reply."""
        return reply

    def between(self):
        """What the receiver gets where the sender has nothing to send, at once and not after its
        wait."""
        return b""


class Watch(Clean):
    """A line that knows what the sender stands at, from what it has sent and has heard."""

    def __init__(self):
        self.is_waiting = True
        self.is_header = False
        self.is_new = False
        self.frame = b""
        self.files = 0
        self.times = 0

    def there(self, frame):
        self.is_new = frame != self.frame
        self.times = 1 if self.is_new else self.times + 1
        if self.is_new:
            # A data block may have number 0 too, but stands behind another block.
            self.is_header = len(self.frame) < 2 < len(frame) and frame[1] == 0
            self.files += self.is_header and frame[3] != 0
        self.frame = frame
        self.is_waiting = False
        return self.damaged_frame(frame)

    def back(self, reply):
        handed = self.damaged_reply(reply)
        heard = heard_of(handed)
        # The ACK of an EOT alone is held until its C comes, and the EOT may be written again.
        if self.is_header and not self.is_at_end_block() and heard[:1] == bytes((ACK,)):
            self.is_waiting = True
        if START in heard:
            self.is_waiting = False
        return handed

    def is_at_end_block(self):
        return self.is_header and self.frame[3] == 0

    def is_at_data(self):
        return len(self.frame) > 2 and not self.is_header

    def damaged_frame(self, frame):
        return frame

    def damaged_reply(self, reply):
        return reply


class Damage:
    """Ways to damage a delivery, by the numbers of a seed."""

    def __init__(self, seed):
        self.random = random.Random(seed)

    def filled(self, data):
        return data + self.random.randbytes(DELIVERY - len(data))

    def frame(self, frame):
        """A frame with bytes flipped, dropped or inserted, or other bytes in its place, and
        sometimes as much behind it as one delivery takes."""
        while True:
            data = bytearray(frame)
            way = self.random.choice(("flip", "drop", "insert", "cut", "other"))
            at = self.random.randrange(len(data))
            if way == "flip":
                for _ in range(self.random.randint(1, 4)):
                    data[self.random.randrange(len(data))] ^= self.random.randint(1, 255)
            elif way == "drop":
                del data[at : at + self.random.randint(1, 4)]
            elif way == "insert":
                data[at:at] = self.random.randbytes(self.random.randint(1, 4))
            elif way == "cut":
                del data[at:]
            else:
                data = bytearray(self.random.randbytes(self.random.randint(1, 1100)))
            made = self.filled(bytes(data)) if self.random.random() < 0.5 else bytes(data)
            if made and not has_frame(made):
                return made

    def noise(self, length):
        return bytes(self.random.choices(NOISE, k=length))

    def reply(self, kept):
        """Noise with these control bytes in it, the last one at its end; without any, as much as
        one delivery takes."""
        if not kept:
            return self.noise(DELIVERY)
        made = b""
        for byte in kept:
            made += self.noise(self.random.randint(0, 30)) + bytes((byte,))
        return made

    def lone_ack(self):
        """An ACK without the C that stood behind it, and as little noise before it as leaves it to
        be heard."""
        return self.noise(self.random.randint(0, OTHERS - 1)) + bytes((ACK,))


class Seeded(Watch):
    """A line that damages deliveries of both ways at random: `most` in all, and for each end in at
    most `longest` rounds until that has got on. The sender has where it writes another frame, and
    the receiver where one came to it whole. The last reply comes through, since nobody would repeat
    it.

    An end that does not get on counts rounds in which the line damages nothing, too: the NAK of a
    first EOT, a frame that meets noise, an answer that is let pass or comes too late. So it is not
    a round without damage that ends a row of bad ones, and less than half of what an end bears is
    damaged."""

    def __init__(self, seed, share, most, longest=4):
        super().__init__()
        self.damage = Damage(seed)
        self.share = share
        self.longest = longest
        self.most = most
        self.is_bad = self.is_there = False
        # How many bad rounds there were since the sender got on, and the receiver.
        self.of_sender = self.of_receiver = 0
        self.bad_frames = self.bad_replies = self.most_in_a_row = 0

    def in_a_row(self):
        return max(self.of_sender, self.of_receiver)

    def may_damage(self, spare=0):
        return (
            self.in_a_row() + spare < self.longest
            and self.bad_frames + self.bad_replies < self.most
        )

    def chosen(self, spare=0):
        return (self.is_bad or self.may_damage(spare)) and self.damage.random.random() < self.share

    def spoil(self):
        """Takes that this round is bad. It ends with a reply."""
        if not self.is_bad:
            self.of_sender += 1
            self.of_receiver += 1
        self.is_bad = True
        self.most_in_a_row = max(self.most_in_a_row, self.in_a_row())

    def damaged_frame(self, frame):
        if self.is_new:
            self.of_sender, self.is_bad, self.is_there = 0, False, False
        if self.may_damage() and self.chosen():
            self.spoil()
            self.bad_frames += 1
            return self.damage.frame(frame)
        if not self.is_there:
            self.of_receiver, self.is_there = 0, True
        return frame

    def damaged_reply(self, reply):
        made = reply
        # Where the sender then waits, the next round is bad as well.
        if not self.is_at_end_block() and self.chosen(spare=1):
            self.spoil()
            self.bad_replies += 1
            kept = bytes(byte for byte in reply if self.damage.random.random() < 0.5)
            has_lost_start = kept == bytes((ACK,)) and len(reply) == 2
            made = self.damage.lone_ack() if has_lost_start else self.damage.reply(kept)
        self.is_bad = False
        return made

    def between(self):
        if not self.is_waiting or not self.may_damage():
            return b""
        self.spoil()
        self.bad_frames += 1
        return self.damage.frame(b"\x00")


class Relay(threading.Thread):
    """Carries the deliveries of one sender to one receiver and back, until both have closed. `due`
    tells when the sender is to start."""

    def __init__(self, line, receiver_port):
        super().__init__(daemon=True)
        self.line = line
        self.receiver_port = receiver_port
        self.listener = socket.create_server(("127.0.0.1", 0))
        self.port = self.listener.getsockname()[1]
        self.fault = None
        self.due = threading.Event()
        self.due.set()

    def run(self):
        try:
            with self.listener:
                self.listener.settimeout(LIMIT)
                sender, _ = self.listener.accept()
            with sender, connected(self.receiver_port) as receiver:
                self.carry(sender, receiver)
        except Exception as fault:  # whatever it is, the check that looks at it fails
            self.fault = fault

    def carry(self, sender, receiver):
        at_once(sender, receiver)
        held = b""
        hand(receiver, self.line.between())
        ready = select.poll()
        for it in (sender, receiver):
            ready.register(it, select.POLLIN)
        while True:
            came_from = {number for number, _ in ready.poll(LIMIT * 1000)}
            if not came_from:
                raise TimeoutError("neither end wrote anything")
            # A reply first, since the frame that is written behind it may answer it.
            if receiver.fileno() in came_from:
                reply = read(receiver)
                if not reply:
                    return
                hand(sender, self.line.back(reply))
                hand(receiver, self.line.between())
                continue
            came = read(sender)
            if not came:
                ready.unregister(sender)
                receiver.shutdown(socket.SHUT_WR)
                continue
            frames, held = split(held + came)
            for frame in frames:
                if not has_frame(frame):
                    raise ValueError("the sender wrote what is no frame: " + frame[:8].hex())
                hand(receiver, self.line.there(frame))


def at_once(*ends):
    """Hands on what is written at once, and waits for more of it for a long time."""
    for end in ends:
        end.setsockopt(socket.IPPROTO_TCP, socket.TCP_NODELAY, 1)
        end.settimeout(LIMIT)


def read(end):
    try:
        return end.recv(65536)
    except ConnectionResetError:
        return b""


def hand(end, data):
    if data:
        try:
            end.sendall(data)
        except (BrokenPipeError, ConnectionResetError):
            pass  # it has ended; its report tells why
