"""Peers of other makers, roughly: `sb`, `rb` and U-Boot's `loady`."""

import binascii

from ends import ACK, CAN, CANCEL, EOT, NAK, START, frames_of, whole_at
from line import MS, SECOND, Read, Sleep, Write


class Bytes:
    """Single bytes of what came, as these programs read."""

    def __init__(self):
        self.held = b""

    def byte(self, wait):
        if not self.held:
            got = yield Read(wait)
            if got is None:
                return None
            self.held = got
        first, self.held = self.held[0], self.held[1:]
        return first

    def purge(self, wait):
        """Drops what comes until nothing came for so long."""
        self.held = b""
        while (yield Read(wait)) is not None:
            pass

    def toss(self):
        """Drops what is there now."""
        self.held = b""
        while (yield Read(0)) is not None:
            pass


def sb_sector(line, frame, wait=10 * SECOND):
    """One block until its ACK; None where it was given up or cancelled."""
    for _ in range(11):
        yield Write(frame)
        last = None
        while True:
            byte = yield from line.byte(wait)
            if byte is None or byte in (NAK, START):
                break
            if byte == ACK:
                return True
            if byte == CAN and last == CAN:
                return None
            last = byte
    return None


def sb_eot(line):
    for _ in range(11):
        yield from line.toss()
        yield Write(bytes([EOT]))
        if (yield from line.byte(10 * SECOND)) == ACK:
            return True
    return None


def sb_asked(line):
    """Waits for C."""
    last = None
    for _ in range(200):
        byte = yield from line.byte(60 * SECOND)
        if byte is None:
            return None
        if byte == START:
            return True
        if byte == CAN and last == CAN:
            return None
        last = byte
    return None


def sb(files, start=0):
    """lrzsz's sender: it writes a block again at NAK, C or after ten seconds.

    It drops what came only before an EOT.
    """
    line, done = Bytes(), 0
    if start:
        yield Sleep(start)
    for kind, frame in frames_of(files):
        if kind in ("header", "end") and not (yield from sb_asked(line)):
            return "failed", done
        if kind == "eot":
            if not (yield from sb_eot(line)):
                return "failed", done
            done += 1
            continue
        if not (yield from sb_sector(line, frame)):
            return "failed", done
        if kind == "header" and not (yield from sb_asked(line)):
            return "failed", done
    return "finished", done


def rb_sector(line, ask, wait):
    """One block or EOT: what `whole_at` gives; None where it was given up."""
    for _ in range(11):
        byte = yield from line.byte(wait)
        if byte == EOT:
            again = yield from line.byte(SECOND)
            if again is None:
                return ("eot", 0, b"")
        elif byte in (1, 2):
            data = bytes([byte])
            while len(data) < (133 if byte == 1 else 1029):
                more = yield from line.byte(SECOND)
                if more is None:
                    break
                data += bytes([more])
            item = whole_at(data)
            if item:
                return item
        elif byte == CAN:
            if (yield from line.byte(SECOND)) == CAN:
                return None
        yield from line.purge(SECOND)
        yield Write(bytes([ask]))
        if ask == NAK:
            wait = 4 * SECOND
    return None


def rb(start=0):
    """lrzsz's receiver: ten seconds for block 0, thirteen for each block of a number that 128
    divides, counted from 0, five for the others, and four once it has asked again.

    Before it asks it drops what comes until a second was quiet. So it does behind an EOT's ACK.
    """
    line, files = Bytes(), []
    if start:
        yield Sleep(start)
    while True:
        yield Write(bytes([START]))
        item = yield from rb_sector(line, START, 10 * SECOND)
        while item and item[0] == "eot":
            yield Write(bytes([ACK]))
            yield from line.purge(SECOND)
            yield Write(bytes([START]))
            item = yield from rb_sector(line, START, 10 * SECOND)
        # a data block in place of block 0 ends it
        if not item or item[1] != 0:
            return "failed", files
        yield Write(bytes([ACK]))
        if item[2][0] == 0:
            return "finished", files
        name, rest = item[2].split(b"\0", 1)
        size = int(rest.split(b"\0")[0].split(b" ")[0])
        yield Write(bytes([START]))
        data, count = b"", 0
        while True:
            wait = 5 if count % 128 else 13
            item = yield from rb_sector(line, NAK if count else START, wait * SECOND)
            if not item:
                return "failed", files
            if item[0] == "eot":
                break
            if item[1] == (count + 1) % 256:
                count += 1
                data += item[2]
            elif item[1] != count % 256:
                yield Write(CANCEL * 2)
                return "failed", files
            yield Write(bytes([ACK]))
        if len(data) < size:
            return "failed", files
        files.append((name.decode("latin-1"), data[:size]))
        yield Write(bytes([ACK]))
        yield from line.purge(SECOND)


WAIT = 2 * SECOND


def uboot_flush(line):
    line.held = b""
    while (yield Read(WAIT)) is not None:
        pass


def uboot_frame(line):
    """One frame, or why there is none.

    After a wait in vain it drops what comes until two seconds were quiet.
    """
    cans, seen = 0, 0
    while True:
        byte = yield from line.byte(WAIT)
        if byte is None:
            yield from uboot_flush(line)
            yield Sleep(250 * MS)
            return "timeout"
        seen += 1
        if byte in (1, 2):
            break
        if byte == CAN:
            cans += 1
            if cans == 3:
                return "cancelled"
        if byte == EOT and seen == 1:
            yield Write(bytes([ACK]))
            return "eot"
    data = bytes([byte])
    for _ in range(132 if byte == 1 else 1028):
        more = yield from line.byte(WAIT)
        if more is None:
            return "timeout"
        data += bytes([more])
    if data[1] + data[2] != 255:
        yield from uboot_flush(line)
        return "frame"
    if binascii.crc_hqx(data[3:-2], 0).to_bytes(2, "big") != data[-2:]:
        return "check"
    return data[1], data[3:-2]


def uboot_opening(line):
    yield Write(bytes([START]))
    for _ in range(20):
        got = yield from uboot_frame(line)
        if isinstance(got, tuple):
            if got[0] != 0:
                return None
            text = got[1].split(b"\0")
            return text[0].decode("latin-1"), int(text[1].split(b" ")[0])
        if got == "cancelled":
            return None
        if got == "timeout":
            yield Sleep(500 * MS)
            yield Write(bytes([START]))
    return None


def uboot_cancels():
    yield Write(bytes([CAN]))
    yield Sleep(4 * MS)
    yield Write(bytes([CAN] * 3 + [8] * 4))
    return "failed", []


def uboot(start=0):
    """U-Boot's loady: two seconds for each byte, C for a bad frame, one file, three CAN."""
    line = Bytes()
    if start:
        yield Sleep(start)
    opened = yield from uboot_opening(line)
    if opened is None:
        return (yield from uboot_cancels())
    name, size = opened
    data, following, owes = b"", 1, True
    while True:
        for _ in range(20):
            if owes:
                yield Write(bytes([ACK]))
                owes = False
            got = yield from uboot_frame(line)
            if isinstance(got, tuple):
                if got[0] == following:
                    following, owes = (following + 1) % 256, True
                    data += got[1]
                    break
                if got[0] == (following - 1) % 256:
                    yield Write(bytes([ACK]))
                    continue
            if got == "cancelled":
                return (yield from uboot_cancels())
            if got == "eot":
                yield Write(bytes([ACK, START]))
                last = yield from uboot_frame(line)
                yield Write(bytes([ACK]))
                if not isinstance(last, tuple):
                    # the file is there, and thrown away
                    yield from uboot_cancels()
                    return "aborted", [(name, data[:size])]
                return "finished", [(name, data[:size])]
            yield Write(bytes([START]))
        else:
            return (yield from uboot_cancels())


