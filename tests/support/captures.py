"""Captures of one TCP connection, as `tcpdump -w` writes them: made of the pieces that passed, over
any link that `ymodem explain` reads, and with what a network does to segments."""

import struct

MAGIC = {
    ("little", 10**6): b"\xd4\xc3\xb2\xa1",
    ("big", 10**6): b"\xa1\xb2\xc3\xd4",
    ("little", 10**9): b"\x4d\x3c\xb2\xa1",
    ("big", 10**9): b"\xa1\xb2\x3c\x4d",
}
# What stands before the internet protocol of version 4, and of 6.
LINKS = {
    0: (b"\2\0\0\0", b"\x1e\0\0\0"),
    1: (bytes(12) + b"\x08\x00", bytes(12) + b"\x86\xdd"),
    101: (b"", b""),
    113: (bytes(14) + b"\x08\x00", bytes(14) + b"\x86\xdd"),
    276: (b"\x08\x00" + bytes(18), b"\x86\xdd" + bytes(18)),
}
SYN, RST, ACK, FIN = 2, 4, 16, 1
# When the first packet passed.
BEGAN = 1_700_000_000


class Capture:
    """A capture, packet by packet. The sender of files has the first port, and the receiver the
    second one."""

    def __init__(
        self, order="little", parts=10**6, link=1, version=4, ports=(40000, 4000), tags=b""
    ):
        self.order, self.parts, self.link, self.version, self.ports, self.tags = (
            order,
            parts,
            link,
            version,
            ports,
            tags,
        )
        self.mark = "<" if order == "little" else ">"
        head = struct.pack(self.mark + "HHiIII", 2, 4, 0, 0, 262144, link)
        self.data = MAGIC[order, parts] + head
        # near the end of the numbers, so that they go round
        self.next = {">": 2**32 - 700, "<": 2**32 - 3}

    def segment(self, way, data, number=None, flags=ACK, ports=None):
        """The bytes of a segment, behind those of the internet protocol."""
        ports = ports or (self.ports if way == ">" else self.ports[::-1])
        number = self.next[way] if number is None else number
        tcp = (
            struct.pack(">HHIIBBHHH", *ports, number % 2**32, 0, 8 << 4, flags, 65535, 0, 0)
            + b"\1" * 12
            + data
        )
        ends = (b"\x0a\0\0\1", b"\x0a\0\0\2")
        if self.version == 6:
            ends = tuple(bytes(12) + it for it in ends)
        ends = ends if way == ">" else ends[::-1]
        if self.version == 4:
            return (
                struct.pack(">BBHHHBBH", 0x45, 0, 20 + len(tcp), 0, 0x4000, 64, 6, 0)
                + b"".join(ends)
                + tcp
            )
        return struct.pack(">IHBB", 6 << 28, len(tcp), 6, 64) + b"".join(ends) + tcp

    def packet(self, moment, data, kept=None):
        """A packet, of which so many bytes were kept."""
        seconds, part = divmod(round(moment * self.parts), self.parts)
        kept = data[:kept]
        self.data += (
            struct.pack(self.mark + "IIII", BEGAN + seconds, part, len(kept), len(data)) + kept
        )

    def framed(self, ip):
        """With what the link has before it, and where that is Ethernet, as long as it has to be."""
        head = LINKS[self.link][self.version == 6]
        # A tag of a VLAN stands before the number of the protocol, which ends the head here.
        whole = (head[:-2] + self.tags + head[-2:] if self.tags else head) + ip
        return whole.ljust(60, b"\xee") if self.link == 1 else whole

    def sends(self, moment, way, data, **how):
        """New bytes of one way."""
        self.packet(moment, self.framed(self.segment(way, data, **how)))
        self.next[way] = (self.next[way] + len(data)) % 2**32

    def again(self, moment, way, data, back):
        """A segment that begins so many bytes before what comes next."""
        self.packet(moment, self.framed(self.segment(way, data, number=self.next[way] - back)))

    def opens(self, way=">"):
        """What opens the connection, from this end."""
        other = "<" if way == ">" else ">"
        for it, flags in ((way, SYN), (other, SYN | ACK)):
            self.packet(
                0, self.framed(self.segment(it, b"", number=self.next[it] - 1, flags=flags))
            )
        self.packet(0, self.framed(self.segment(way, b"")))

    def refuses(self, port):
        """A call of the sender from this port, where nobody listens yet."""
        ports = (port, self.ports[1])
        for way, flags in ((">", SYN), ("<", RST | ACK)):
            it = self.segment(way, b"", number=port, flags=flags, ports=ports)
            self.packet(0, self.framed(it))
            ports = ports[::-1]


def captured(pieces, opener=">", **how):
    """A capture of pieces: each a moment, `>` or `<`, and bytes."""
    it = Capture(**how)
    it.opens(opener)
    for moment, way, data in pieces:
        # no packet of the network has more
        for at in range(0, len(data), 1448):
            it.sends(moment, way, data[at : at + 1448])
    return it
