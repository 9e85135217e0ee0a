"""Captures of TCP, told by `ymodem explain` as the records are that have the same bytes."""

import os
import struct
import subprocess
import tempfile

from support.captures import BEGAN, LINKS, Capture, captured
from support.cases import case, cases, sentence
from support.explained import PIECE, crc, explained, record_of, told, within_bounds


def pieces_of(name):
    return [
        (float(at), way, bytes.fromhex(digits))
        for at, way, digits in PIECE.findall(record_of(name)[2])
    ]


def told_of(data, *words):
    """What is told of a capture of these bytes."""
    with tempfile.TemporaryDirectory() as folder:
        path = os.path.join(folder, "a.pcap")
        with open(path, "wb") as it:
            it.write(data)
        return told(*words, path)


@cases(
    *(
        case(
            "a capture of TCP: link %d, IPv%d" % (link, version),
            "whole",
            {"link": link, "version": version},
        )
        for link in LINKS
        for version in (4, 6)
    ),
    *(
        case(
            "a capture of TCP: %s bytes first, %d parts of a second" % (order, parts),
            "whole",
            {"order": order, "parts": parts},
        )
        for order in ("little", "big")
        for parts in (10**6, 10**9)
    ),
    *(
        case("a capture of TCP: the session %s" % name, name)
        for name in ("damage", "eats-11-13", "receiver-cancels", "whole-1k")
    ),
    *(
        case(
            "a capture of TCP: link %d, IPv%d, %s" % (link, version, what),
            "whole",
            {"link": link, "version": version, "tags": tags},
        )
        for link in (1, 113)
        for version in (4, 6)
        for what, tags in (
            ("of a VLAN", b"\x81\x00\x20\x07"),
            ("of a VLAN in another one", b"\x88\xa8\x00\x01\x81\x00\x00\x02"),
        )
    ),
    case("a capture of TCP: opened by the receiver", "whole", {"opener": "<"})
)
def test_is_told_alike(name, how=None):
    """A capture of a recorded session is told as its record is."""
    pieces = pieces_of(name)
    wanted = told(record_of(name)[0])
    assert told_of(captured(pieces, **(how or {})).data) == wanted, "another telling"


@sentence("a capture of TCP: segments that come again")
def test_resent():
    """Segments that come again, whole and in part, alone and with more behind, bring nothing
    twice."""
    pieces = pieces_of("whole")
    it = Capture()
    it.opens()
    for at, way, data in pieces:
        for start in range(0, len(data), 100):
            piece = data[start : start + 100]
            it.sends(at, way, piece)
            it.again(at, way, piece, len(piece))
            it.again(at, way, piece[-7:], len(piece[-7:]))
        # one byte that keeps a connection open, and a segment that has the last ten and the next
        it.again(at, way, b"\0", 1)
        it.packet(at, it.framed(it.segment(way, b"")))
    assert told_of(it.data) == told(record_of("whole")[0]), "another telling"


@sentence("a capture of TCP: a segment that is new in part")
def test_overlaps():
    """Of a segment that begins before what comes next only the rest is new."""
    data = b"C" + b"XY"
    it = Capture()
    it.sends(0, "<", data[:1])
    it.packet(0, it.framed(it.segment("<", data, number=it.next["<"] - 1)))
    assert told_of(it.data)[1].endswith("< no frame: XY"), "told %r" % told_of(it.data)


@sentence("a capture of TCP: packets that are no TCP")
def test_other_packets_do_not_count():
    """What is no TCP is passed over."""
    it = Capture()
    udp = struct.pack(">BBHHHBBH", 0x45, 0, 32, 0, 0, 64, 17, 0) + bytes(8) + bytes(12)
    it.packet(0, it.framed(udp))
    it.packet(0, bytes(12) + b"\x08\x06" + bytes(46))
    it.packet(0, b"\0")
    it.opens()
    for at, way, data in pieces_of("whole"):
        it.sends(at, way, data)
        it.packet(at, it.framed(udp))
    assert told_of(it.data) == told(record_of("whole")[0]), "another telling"


@sentence("a capture of TCP: calls that were refused before")
def test_refused_calls():
    """Who calls before anybody listens is refused, and calls again from other ports: no byte came
    of these, and the connection that was taken is told."""
    it = Capture()
    for port in (39998, 39999):
        it.refuses(port)
    it.opens()
    for at, way, data in pieces_of("whole"):
        it.sends(at, way, data)
    assert told_of(it.data) == told(record_of("whole")[0]), "another telling"


@cases(
    case("a capture of TCP: who begins by C receives", b"C", False, ">"),
    case("a capture of TCP: who begins by NAK receives", b"\x15", False, ">"),
    case("a capture of TCP: who begins by a block sends", b"\x01\x00\xff", True, "<"),
    case("a capture of TCP: who opens it sends, behind text", b"login: ", True, ">"),
    case("a capture of TCP: who is opened receives, behind text", b"login: ", False, "<"),
)
def test_ways_are_known(first, is_sender, opener):
    """The side whose first byte of all this is, and who opened it: `>` is the sender or not."""
    it = Capture()
    it.opens(opener)
    it.sends(0, ">", first)
    lines = told_of(it.data)
    way = ">" if is_sender else "<"
    assert any(" %s " % way in line for line in lines), "told %r" % lines
    turned = told_of(it.data, "--turned")
    assert any(" %s " % ("<" if is_sender else ">") in line for line in turned), (
        "turned %r" % turned
    )


def behind(made):
    """The bytes of a capture with a packet more, which is made by this."""

    def data(it):
        more = Capture(it.order, it.parts, it.link, it.version, it.ports)
        more.next = dict(it.next)
        head = len(more.data)
        made(more)
        return it.data + more.data[head:]

    return data


CUT = "the capture ends in what begins there"
SHORT = "not all bytes of the packet were kept (tcpdump -s 0 keeps them)"
SECOND = "the packet is of a second connection (tcpdump -r IN -w OUT tcp port N keeps one)"
GAP = "bytes before those of the packet are missing or late"
FAULTS = (
    ("the first bytes alone", lambda it: it.data[:23], 0, CUT),
    (
        "a link that is not read",
        lambda it: it.data[:20] + b"\x93\0\0\0" + it.data[24:],
        0,
        "a link of type 147 is none that is read",
    ),
    ("what stands before a packet is cut", lambda it: it.data + b"\0" * 15, None, CUT),
    (
        "a packet is cut",
        behind(lambda it: (it.sends(0, ">", b"ab"), setattr(it, "data", it.data[:-1]))),
        None,
        CUT,
    ),
    (
        "a packet of more bytes than one has",
        lambda it: it.data + struct.pack("<IIII", BEGAN, 0, 262145, 262145),
        None,
        "a packet states more than 262144 bytes",
    ),
    (
        "not all bytes were kept",
        behind(lambda it: it.packet(0, it.framed(it.segment(">", bytes(200))), 96)),
        None,
        SHORT,
    ),
    (
        "not all of a header was kept",
        behind(lambda it: it.packet(0, it.framed(it.segment(">", b"a"))[:50])),
        None,
        SHORT,
    ),
    (
        "a second connection",
        behind(lambda it: it.sends(0, ">", b"a", ports=(40001, 4000))),
        None,
        SECOND,
    ),
    (
        "bytes are missing",
        behind(lambda it: it.packet(0, it.framed(it.segment(">", b"a", number=it.next[">"] + 1)))),
        None,
        GAP,
    ),
    (
        "a fragment",
        behind(lambda it: it.packet(0, it.framed(fragment(it.segment(">", b"a"))))),
        None,
        "the packet is a fragment",
    ),
)


def fragment(ip):
    return ip[:6] + b"\x20\0" + ip[8:]


@cases(
    *(
        case("a capture that cannot be read on: " + name, made, place, says)
        for name, made, place, says in FAULTS
    )
)
def test_stops(made, place, says):
    """A capture that cannot be read on names the place, and tells what stands before."""
    it = Capture()
    it.opens()
    it.sends(0, "<", b"C")
    before = told_of(it.data)[:-1]
    data = made(it)
    at = len(it.data) if place is None else place
    with tempfile.TemporaryDirectory() as folder:
        path = os.path.join(folder, "a.pcap")
        with open(path, "wb") as file:
            file.write(data)
        done = explained(path)
    assert done.returncode == 1, "status %d" % done.returncode
    assert done.stderr == "'%s' cannot be read on: byte %d: %s\n" % (path, at, says), (
        "it said %r" % done.stderr
    )
    front = done.stdout.splitlines()
    assert front == (before[: len(front)] if place is None else []), "told %r" % front


@sentence("a pcapng capture is named, with what converts it")
def test_pcapng_is_named():
    with tempfile.TemporaryDirectory() as folder:
        path = os.path.join(folder, "a.pcapng")
        with open(path, "wb") as it:
            it.write(
                b"\x0a\x0d\x0d\x0a\x1c\0\0\0\x4d\x3c\x2b\x1a\1\0\0\0" + b"\xff" * 8 + b"\x1c\0\0\0"
            )
        done = explained(path)
    says = (
        "'%s' is a pcapng capture, which is not read; editcap -F pcap IN OUT makes a pcap of it\n"
        % path
    )
    assert done.returncode == 1 and done.stderr == says and not done.stdout, (
        "it said %r" % done.stderr
    )


@sentence("a capture of TCP in a pipe")
def test_standard_input_is_told():
    """A pipe, too, which gives its bytes in small pieces."""
    data = captured(pieces_of("whole")).data
    with tempfile.TemporaryDirectory() as folder:
        path = os.path.join(folder, "a.pcap")
        with open(path, "wb") as it:
            it.write(data)
        words = ["sh", "-c", 'dd if="$0" bs=7 status=none | cat', path]
        with subprocess.Popen(words, stdout=subprocess.PIPE) as child:
            assert told(stdin=child.stdout) == told(path), "another telling of standard input"


@sentence("a capture of TCP of 100 MB is told in seconds and little memory")
def test_a_long_capture_is_told():
    """A capture of 100 MB takes seconds and little memory."""
    body = bytes(range(256)) * 4
    behind_body = body + crc(body)
    with tempfile.TemporaryDirectory() as folder:
        path = os.path.join(folder, "long")
        with open(path, "wb") as it:
            made = Capture()
            made.opens()
            for number in range(91000):
                at = number % 256
                made.sends(number / 1000, ">", bytes((2, at, 255 - at)) + behind_body)
                if len(made.data) > 1 << 16:
                    it.write(made.data)
                    made.data = b""
            it.write(made.data)
        within_bounds(path)
