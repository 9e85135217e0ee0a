"""Frames and control bytes, as both ends of a transfer write them."""

import binascii

SOH, STX, EOT, ACK, NAK, CAN, START = 0x01, 0x02, 0x04, 0x06, 0x15, 0x18, 0x43
CONTROLS = bytes((ACK, NAK, CAN, START))
CANCEL = bytes((CAN, CAN))
ACK_START = bytes((ACK, START))
FRAME_LENGTHS = {SOH: 133, STX: 1029, EOT: 1, CAN: 2}

# The most bytes that an end takes as one delivery.
DELIVERY = 2048


def has_frame(data):
    """Whether these bytes begin with a whole frame."""
    length = FRAME_LENGTHS.get(data[0]) if data else None
    if length is None or len(data) < length:
        return False
    if data[0] == EOT:
        return True
    if data[0] == CAN:
        return data[1] == CAN
    check = data[length - 2] << 8 | data[length - 1]
    return data[1] + data[2] == 255 and binascii.crc_hqx(data[3 : length - 2], 0) == check


def split(data):
    """The frames that stand in what a sender wrote, each by the length that its first byte tells,
    and what is left of the bytes."""
    frames = []
    while data and len(data) >= FRAME_LENGTHS.get(data[0], 1):
        length = FRAME_LENGTHS.get(data[0], 1)
        frames.append(data[:length])
        data = data[length:]
    return frames, data


def block(number, body):
    """The frame of a block."""
    first = SOH if len(body) == 128 else STX
    return (
        bytes((first, number % 256, 255 - number % 256))
        + body
        + binascii.crc_hqx(body, 0).to_bytes(2, "big")
    )


def header(name, rest=b"0"):
    """Block 0 of a file."""
    body = name + b"\x00" + rest
    return block(0, body + bytes((128 if len(body) < 128 else 1024) - len(body)))


END = block(0, bytes(128))


def mixed(data):
    """The data blocks of a file: long ones while they are full, then short ones."""
    long = len(data) // 1024 * 1024
    return [data[at : at + 1024] for at in range(0, long, 1024)] + short(data[long:])


def short(data):
    """The data blocks of a file for --short."""
    return [data[at : at + 128].ljust(128, b"\x1a") for at in range(0, len(data), 128)]


def frames_of(files, cut=mixed):
    """All frames of a batch, in order."""
    frames = []
    for name, data in files:
        frames.append(header(name.encode(), b"%d" % len(data)))
        frames += [block(number, body) for number, body in enumerate(cut(data), 1)]
        frames.append(bytes((EOT,)))
    return [*frames, END]


# Places in a batch: where something can happen to a transfer.
PLACES = ("block 0", "the first block", "a later block", "the EOT", "the end block")


def place(where, files, cut=mixed):
    """Which frame of the batch that is, from 0. The file is the first one, which needs three
    blocks."""
    eot = 1 + len(cut(files[0][1]))
    return dict(zip(PLACES, (0, 1, 3, eot, len(frames_of(files, cut)) - 1)))[where]
