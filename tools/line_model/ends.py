"""Both ends of this program, as their tables say, over any port."""

import binascii

ACK, NAK, START, CAN, EOT = 0x06, 0x15, 0x43, 0x18, 0x04
CANCEL = bytes([CAN, CAN])
LIMIT = 2048
GIVE_UP = 10
REPLY, WITHIN = "reply", "within"
CONTROLS = (ACK, NAK, START, CAN)


def frame_of(number, body):
    size = 128 if len(body) <= 128 else 1024
    body = body + b"\x1a" * (size - len(body))
    head = bytes([1 if size == 128 else 2, number & 255, 255 - (number & 255)])
    return head + body + binascii.crc_hqx(body, 0).to_bytes(2, "big")


def header_of(name, data):
    text = b"%s\0%d" % (name.encode(), len(data))
    return text + bytes(128 - len(text))


def blocks_of(data):
    """Long blocks, and short ones for a short rest."""
    out, at = [], 0
    while at < len(data):
        size = 1024 if len(data) - at > 896 else 128
        out.append(data[at : at + size])
        at += size
    return out


def frames_of(files):
    """The flat list of a batch: (kind, bytes)."""
    out = []
    for name, data in files:
        out.append(("header", frame_of(0, header_of(name, data))))
        for number, body in enumerate(blocks_of(data)):
            out.append(("block", frame_of(number + 1, body)))
        out.append(("eot", bytes([EOT])))
    out.append(("end", frame_of(0, bytes(128))))
    return out


def whole_at(data):
    """The kind, the number and the body of the frame at the front.

    None where more may come, and False where none can.
    """
    if not data:
        return None
    if data[0] == EOT:
        return ("eot", 0, b"")
    if data[0] == CAN:
        return None if len(data) < 2 else ("cancel", 0, b"") if data[1] == CAN else False
    if data[0] not in (1, 2):
        return False
    if len(data) > 2 and data[1] + data[2] != 255:
        return False
    size = 128 if data[0] == 1 else 1024
    if len(data) < size + 5:
        return None
    body = bytes(data[3 : 3 + size])
    if binascii.crc_hqx(body, 0).to_bytes(2, "big") != bytes(data[3 + size : 5 + size]):
        return False
    return ("block", data[1], body)


def delivery(port, enough):
    """Reads one delivery, as the engines do."""
    data, wait = b"", REPLY
    while len(data) < LIMIT:
        got = yield from port.read(wait, LIMIT - len(data))
        if got is None:
            return data
        data += got
        if enough(data):
            return data
        wait = WITHIN
    return data


class Sender:
    """The sender's table."""

    def __init__(self, files):
        self.frames = frames_of(files)
        self.place, self.is_sent = 0, False
        self.retries, self.done, self.outcome = 0, 0, None

    def reads(self, data):
        """Where reading a delivery leads: (place, is_sent, done, outcome, is_settled)."""
        place, sent, done = self.place, self.is_sent, 0
        after_can = False
        for byte in data:
            if byte not in CONTROLS:
                continue
            if byte == CAN:
                if after_can:
                    return place, sent, done, "cancelled", True
                after_can = True
                continue
            after_can = False
            kind = self.frames[place][0]
            if not sent:
                if byte == START:
                    return place, True, done, None, True
            elif byte == ACK:
                if kind == "end":
                    return place, sent, done, "finished", True
                place += 1
                if kind == "block":
                    return place, True, done, None, True
                sent = False
                done += kind == "eot"
            else:
                return place, sent, done, None, True
        return place, sent, done, None, False

    def hear(self, data):
        place, sent, done, outcome, _ = self.reads(data)
        moved = (place, sent) != (self.place, self.is_sent)
        self.place, self.is_sent = place, sent
        self.done += done
        self.outcome = outcome
        if outcome is None:
            self.retries = 0 if moved else self.retries + 1
            if self.retries >= GIVE_UP:
                self.outcome = "no-reply"

    def run(self, port):
        while self.outcome is None:
            if self.is_sent:
                yield from port.write(self.frames[self.place][1])
            data = yield from delivery(port, lambda d: self.reads(d)[4])
            self.hear(data)
        if self.outcome == "no-reply":
            yield from port.write(CANCEL)
        return self.outcome, self.done


class Receiver:
    """The receiver's table.

    With `twice` it confirms each EOT twice; with `minds` it ends where another block 0 comes in
    place of a repeat.
    """

    def __init__(self, twice=True, minds=False):
        self.twice, self.minds = twice, minds
        self.files, self.outcome, self.retries = [], None, 0
        self.file, self.count, self.data, self.first_eot = None, 0, b"", False
        self.opening = None

    def ends(self, data):
        item = whole_at(data)
        return bool(item)

    def asks(self, progress, reply):
        self.retries = 0 if progress else self.retries + 1
        if self.retries >= GIVE_UP:
            self.outcome = "too-many-errors"
            return CANCEL
        return reply

    def stop(self, outcome, reply):
        self.outcome = outcome
        return reply

    def hear(self, data):
        item = whole_at(data) or None
        kind = item and item[0]
        if kind == "cancel":
            return self.stop("cancelled", b"")
        if self.file is None:
            return self.awaiting(kind, item)
        return self.in_file(kind, item)

    def awaiting(self, kind, item):
        if kind == "block":
            if item[1] != 0:
                return self.stop("out-of-step", CANCEL)
            if item[2][0] == 0:
                return self.stop("finished", bytes([ACK]))
            name, rest = item[2].split(b"\0", 1)
            self.opening = item[2]
            self.file = (name.decode("latin-1"), int(rest.split(b"\0")[0].split(b" ")[0]))
            self.count, self.data, self.first_eot = 0, b"", False
            return self.asks(True, bytes([ACK, START]))
        if kind == "eot" and self.files:
            return self.asks(False, bytes([ACK, START]))
        return self.asks(False, bytes([START]))

    def in_file(self, kind, item):
        size = self.file[1]
        covered = len(self.data) >= size
        if kind == "block":
            if item[1] == (self.count + 1) % 256:
                self.count += 1
                if covered:
                    return self.asks(False, bytes([ACK]))
                self.data = (self.data + item[2])[:size]
                return self.asks(True, bytes([ACK]))
            if self.count and item[1] == self.count % 256:
                return self.asks(False, bytes([ACK]))
            if not self.count and item[1] == 0:
                if self.minds and item[2] != self.opening:
                    return self.stop("out-of-step", CANCEL)
                return self.asks(False, bytes([ACK, START]))
            return self.stop("out-of-step", CANCEL)
        if kind == "eot":
            if not covered:
                return self.asks(False, bytes([NAK]))
            if self.twice and not self.first_eot:
                self.first_eot = True
                return self.asks(True, bytes([NAK]))
            self.files.append((self.file[0], self.data))
            self.file = None
            return self.asks(True, bytes([ACK, START]))
        return self.asks(False, bytes([NAK if self.count else START]))

    def run(self, port):
        while self.outcome is None:
            data = yield from delivery(port, self.ends)
            reply = self.hear(data)
            if reply:
                yield from port.write(reply)
        return self.outcome, self.files
