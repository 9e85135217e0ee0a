"""What a sender wrote last, and what of that which comes it does not hear."""

from dataclasses import dataclass

from ends import ACK, CAN, CONTROLS, NAK, START

WITHIN_MS = 1_000
MOMENT, BRIEF, TOGETHER, RESTED = 100, 25, 10, 500
DOUBTS = ("doubted", "dropped")
# block 0 of a file with bytes, and of one without
OPENINGS = ("opening", "empty")
STALE_ASKS = 10
OTHERS = 4


def is_empty(zero):
    """Whether a block 0 says that its file has no bytes: an end writes no 0 before a length."""
    return bytes(zero[3:]).partition(b"\0")[2][:1] == b"0"


@dataclass
class Sent:
    length: int = 0
    first: int = 0
    second: int = 0
    kind: str = "nothing"

    def then(self, data):
        at = lambda place: data[place] if place < len(data) else 0
        first = "empty" if is_empty(data) else "opening"
        if len(data) == 1:
            kind = "eot"
        elif len(data) <= 3:
            kind = "short"
        elif at(1):
            kind = "data"
        elif self.kind in ("nothing", "eot", "short"):
            kind = first if at(3) else "end"
        else:
            kind = self.kind
        return Sent(len(data), at(0), at(1), kind)

    def is_same(self, other):
        mine = (self.length, self.first, self.second)
        return mine == (other.length, other.first, other.second)


class Ear:
    """What of that which comes to a sender is no reply: `echo` is (name, values..)."""

    def __init__(self):
        self.echo, self.others, self.at = ("open",), 0, 0

    def deaf(self, *echo):
        self.echo = echo
        return False

    def other(self, *echo):
        self.others = min(OTHERS, self.others + 1)
        return self.deaf(*echo)

    def outside(self, byte):
        if byte in (1, 2):
            return self.other("head", byte)
        if byte not in CONTROLS:
            is_lone = self.others == 0 and byte != 4
            self.other("open")
            return is_lone
        self.echo = ("open",)
        return byte != ACK or self.others < OTHERS

    def listen(self, byte, frame, now):
        if self.at + WITHIN_MS <= now:
            self.echo, self.others = ("open",), 0
        self.at = now
        name, *values = self.echo
        if name == "open":
            return self.outside(byte)
        if name == "head":
            return self.deaf("number", values[0], byte)
        if name == "broken":
            return self.deaf("broken")
        if name == "goes":
            place = values[0]
            if len(frame) <= place or frame[place] != byte:
                return self.deaf("broken")
            return self.deaf("open") if place + 1 == len(frame) else self.deaf("goes", place + 1)
        first, number = values
        if byte == 255 - number:
            is_ours = len(frame) > 3 and (frame[0], frame[1]) == (first, number)
            return self.deaf("goes", 3) if is_ours else self.deaf("broken")
        return self.deaf("number", number, byte) if number in (1, 2) else self.outside(byte)


class Hold:
    """What a sender hears later, or not at all."""

    def __init__(self):
        self.is_held, self.at, self.first_ack = False, 0, "counts"
        self.asks_left, self.asked_at = 0, 0

    def wrote(self, kind, is_repeat, is_doubted, now):
        self.is_held = kind == "end" and is_repeat and self.is_held
        stays = DOUBTS if is_repeat else ("brief", "rested")
        if is_doubted and not is_repeat:
            self.first_ack = "doubted"
        elif self.first_ack not in stays:
            self.first_ack = "counts"
        self.asks_left = STALE_ASKS if kind in OPENINGS and not is_repeat else 0
        self.asked_at = now

    def ack(self, now):
        self.at = self.at if self.is_held else now
        self.is_held = True
        return b""

    def moment(self):
        return {"rested": 0, "brief": BRIEF}.get(self.first_ack, MOMENT)

    def seen(self, now):
        apart = max(0, now - self.at)
        if apart < TOGETHER:
            return "brief"
        return "rested" if RESTED <= apart else "counts"

    def start(self, now):
        if self.first_ack == "dropped":
            self.first_ack = "counts"
            return b""
        was, self.is_held = self.is_held, False
        if was:
            self.first_ack = self.seen(now)
        return bytes([ACK, START]) if was else bytes([START])

    def at_eot(self, byte, now):
        if byte == ACK and self.first_ack in DOUBTS:
            self.is_held, self.first_ack = False, "dropped"
            return b""
        if byte == ACK:
            self.first_ack = "counts"
            return self.ack(now)
        if byte == START:
            return self.start(now)
        self.is_held = False
        if byte == NAK:
            self.first_ack = "counts"
        return bytes([byte])

    def at_moment(self, is_end, byte, now):
        """Behind the end block, or a block 1 whose ACK may be that of a copy of block 0."""
        if byte == ACK:
            return self.ack(now)
        is_passed = self.is_held and (byte != CAN if is_end else byte == START)
        self.is_held = is_passed and is_end
        return b"" if is_passed else bytes([byte])

    def control(self, kind, byte, is_first, now):
        if self.is_held and byte not in CONTROLS:
            return b""
        if kind == "empty" and byte == ACK and self.first_ack in DOUBTS:
            self.first_ack, self.asks_left, self.asked_at = "dropped", STALE_ASKS, now
            return b""
        is_soon = now < self.asked_at + WITHIN_MS
        if byte == START and is_first and self.asks_left and is_soon:
            self.asks_left -= 1
            self.asked_at = now
            self.first_ack = "counts" if self.first_ack == "dropped" else self.first_ack
            return b""
        if kind == "eot":
            return self.at_eot(byte, now)
        if kind == "end" or (kind == "data" and self.first_ack == "doubted"):
            return self.at_moment(kind == "end", byte, now)
        return bytes([byte])
