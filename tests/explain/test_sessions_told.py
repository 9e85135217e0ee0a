"""Recorded sessions, told by `ymodem explain`.

tests/explain/record_sessions.py made each of them between real senders and receivers of files, over
a line that was spoiled on purpose. The first line of each has the sentence that what was done to
its line, or who stood at its ends, calls for.
"""

import os
import tempfile

from support.cable import plug
from support.cases import case, cases, sentence
from support.explained import (
    DATA,
    PIECE,
    crc,
    explained,
    record_of,
    recorded,
    told,
    ways,
    within_bounds,
)
from support.picocom import picocom
from support.skipping import needs
from support.waits import wait_until


# At most so many bytes of data are kept.
MOST = 2 * 1024 * 1024


@cases(*(case("the sentence of a recorded session: " + name, name) for name in recorded()))
def test_is_told(name):
    path, sentence, _ = record_of(name)
    lines = told(path)
    assert lines and lines[-1] == sentence, "told %r, wanted %r" % (lines[-1:], sentence)


@sentence("a session is told alike in any pieces")
def test_pieces_do_not_count():
    """However the bytes of a record are cut into lines at one moment, the same is told of
    frames."""
    path, _, text = record_of("whole")
    whole = told(path)
    cut = []
    for moment, way, digits in PIECE.findall(text):
        cut += [
            "%s %s %s" % (moment, way, digits[at : at + 14]) for at in range(0, len(digits), 14)
        ]
    with tempfile.TemporaryDirectory() as folder:
        other = os.path.join(folder, "cut")
        with open(other, "w", encoding="ascii") as it:
            it.write("\n".join(cut) + "\n")
        lines = told(other)
    assert lines == whole, "cut into lines of seven bytes, another telling"


@sentence("a capture of 100 MB is told in seconds and little memory")
def test_a_long_file_is_told():
    """A capture of 100 MB takes seconds and little memory."""
    body = bytes(range(256)) * 4
    with tempfile.TemporaryDirectory() as folder:
        path = os.path.join(folder, "long")
        behind = body + crc(body)
        with open(path, "wb") as it:
            for number in range(97657):
                at = number % 256
                it.write(bytes((2, at, 255 - at)) + behind)
        within_bounds("--there", path)


@sentence("standard input is told as a file is")
def test_standard_input_is_told():
    """Without a file, and by `-`, standard input is read."""
    path, _, text = record_of("whole")
    whole = told(path)
    for words in ((), ("-",)):
        with open(path, "rb") as it:
            assert told(*words, stdin=it) == whole, "another telling of standard input by %r" % (
                words,
            )
    with tempfile.TemporaryDirectory() as folder:
        path = os.path.join(folder, "there")
        with open(path, "wb") as it:
            it.write(ways(text)[0])
        with open(path, "rb") as it:
            assert told("--there", "-", stdin=it) == told(
                "--there", path
            ), "another telling of one way"


@sentence("what the lines before a fault say is told")
def test_lines_before_are_told():
    """What the lines before the one that cannot be read say is told."""
    path, _, _ = record_of("whole")
    with open(path, encoding="ascii") as it:
        lines = it.read().splitlines()
    whole = told(path)
    for count in range(3, len(lines), 5):
        text = "\n".join(lines[:count]) + "\n1.5 = 43\n"
        done = explained(input=text, stdin=None)
        assert done.returncode == 1, "status %d" % done.returncode
        assert (
            "'standard input' is no record" in done.stderr
            and ": line %d: " % (count + 1) in done.stderr
        ), ("it said %r" % done.stderr)
        front = done.stdout.splitlines()
        assert whole[: len(front)] == front, "told %r" % front[-3:]


CUT = "'standard input' is cut: line %d has no end, and only what stands before it is told\n"


@sentence("a record that is cut is told up to its last whole line")
def test_a_cut_record_is_told():
    """A last line without an end was cut, wherever that was. Nothing of it is told, all that stands
    before it is, as if it stood alone, and it is said that the record is cut."""
    _, _, text = record_of("whole")
    lines = text.splitlines(keepends=True)
    # A block 0, a data block, and an answer.
    for number in (3, 5, 6):
        front, line = "".join(lines[: number - 1]), lines[number - 1].rstrip("\n")
        digits = line.rindex(" ") + 1
        cuts = (1, line.index("."), line.index(".") + 3, digits - 2, digits - 1, digits)
        whole = explained(input=front, stdin=None).stdout
        for cut in {*cuts, digits + 1, digits + 2, len(line) - 1, len(line)}:
            done = explained(input=front + line[:cut], stdin=None)
            how = "behind %r" % line[:cut][-20:]
            assert done.stdout == whole, "%s it told %r" % (how, done.stdout[-200:])
            assert done.returncode == 1, "%s status %d" % (how, done.returncode)
            assert done.stderr == CUT % number, "%s it said %r" % (how, done.stderr)


@sentence("a comment and a space need no end")
def test_a_comment_needs_no_end():
    """A record whose last line says nothing is whole also where that has no end."""
    path, _, text = record_of("whole")
    for last in ("# made by hand", " "):
        lines = explained(input=text + last, stdin=None)
        assert lines.returncode == 0 and not lines.stderr, "behind %r: %r" % (last, lines.stderr)
        assert lines.stdout.splitlines() == told(path), "behind %r another telling" % last


@sentence("a record that ends behind a damaged frame: it never came whole")
def test_a_last_damaged_frame_is_told():
    """Where the last frame came damaged, and no whole block behind it, that is what went wrong."""
    _, _, text = record_of("damage-mended-own")
    pieces = ["%s %s %s" % it for it in PIECE.findall(text)]
    refused = next(at for at, it in enumerate(pieces) if it.endswith("< 15"))
    lines = told("-", stdin=None, input="\n".join(pieces[: refused + 1]) + "\n")
    wanted = "a frame came damaged and never whole: try a lower speed or a better line"
    assert lines[-1] == wanted, "told %r" % lines[-2:]


@sentence("where nothing can be printed the status is 3")
def test_a_full_device_is_told():
    """Where nothing can be printed the status is 3."""
    path, _, _ = record_of("whole")
    with open("/dev/full", "w", encoding="ascii") as full:
        done = explained(path, stdout=full)
    assert done.returncode == 3 and done.stderr == "fault: device\n", "status %d: %r" % (
        done.returncode,
        done.stderr,
    )


@sentence("a file of two that is not there is named")
def test_two_files_are_named():
    path, _, _ = record_of("whole")
    with tempfile.TemporaryDirectory() as folder:
        absent = os.path.join(folder, "absent")
        done = explained("--there", path, "--back", absent)
    assert (
        done.returncode == 1
        and done.stderr == "cannot open '%s': no such file or directory\n" % absent
    ), ("it said %r" % done.stderr)


NO_RECORD = (
    "'FOLDER/a.record' is no record: %s; its lines are SECONDS > HEX or SECONDS < HEX; files of"
    " bytes go by --there and --back"
)
REFUSED = (
    (
        "a line without seconds",
        1,
        NO_RECORD % "line 2: it does not begin with its seconds and a space",
        "0.1 < 43\n> 43\n",
    ),
    (
        "a line without a way",
        1,
        NO_RECORD % "line 1: no > and no < stands behind its seconds",
        "0.1 43\n",
    ),
    (
        "a digit that is none",
        1,
        NO_RECORD % "line 3: a character is no hexadecimal digit",
        "# one\n0.1 < 43\n0.2 > 4g\n",
    ),
    ("half a byte", 1, NO_RECORD % "line 1: its last byte has one digit", "0.1 < 4\n"),
    ("no file", 1, "cannot open 'FOLDER/a.record': no such file or directory", None),
    (
        "a record and a way",
        2,
        "a record has both ways: give it alone, or else --there and --back",
        "0.1 < 43\n",
        ("--there", "FOLDER/a.record"),
    ),
)


@cases(*(case("what is refused: " + name, *more) for name, *more in REFUSED))
def test_is_refused(status, says, text, words=()):
    """A record of this text, and more words, give this status, and a line that says this."""
    with tempfile.TemporaryDirectory() as folder:
        path = os.path.join(folder, "a.record")
        if text is not None:
            with open(path, "w", encoding="ascii") as it:
                it.write(text)
        done = explained(path, *(it.replace("FOLDER", folder) for it in words))
    assert done.returncode == status, "status %d: %r" % (done.returncode, done.stderr)
    assert done.stderr == says.replace("FOLDER", folder) + "\n", "it said %r" % done.stderr


@sentence("the recorded sessions are small")
def test_is_small():
    size = sum(os.path.getsize(os.path.join(DATA, it)) for it in os.listdir(DATA))
    assert size <= MOST, "%d bytes of recorded sessions" % size


# Without moments a cut frame ends where the next begins, so these are told as with them.
PAIRS = (
    "whole",
    "whole-short-blocks",
    "whole-1k",
    "damage-mended",
    "eats-11-13",
    "eats-1a",
    "echo",
    "no-room-for-length",
    "nobody-answered",
    "nobody-asked",
    "other-speed-sender",
    "seven-bits",
    "sender-killed",
    "xmodem-sender",
    "xmodem-receiver",
    "ymodem-g-receiver",
    "zmodem-sender",
    "zmodem-receiver",
)


@cases(*(case("the same as two files of bytes: " + name, name) for name in PAIRS))
def test_pair_is_told(name):
    """The same as two files of bytes, which tell no moments: the sentence is the same."""
    _, sentence, text = record_of(name)
    with tempfile.TemporaryDirectory() as folder:
        paths = [os.path.join(folder, it) for it in ("there", "back")]
        for path, data in zip(paths, ways(text)):
            with open(path, "wb") as it:
                it.write(data)
        lines = told("--there", paths[0], "--back", paths[1])
    assert lines and lines[-1] == sentence, "told %r, wanted %r" % (lines[-1:], sentence)


ONE_WAY = (
    (
        "whole",
        "there",
        "the sender wrote its whole batch: what the receiver answered is not in the file",
    ),
    ("whole", "back", "nothing wrong is seen one way: record both ways to see what was answered"),
    ("nobody-answered", "back", "the receiver asked and no frame came: start the sender"),
    (
        "nobody-answered",
        "there",
        "no frame is in the file: see which way it has, and whether a sender was started",
    ),
    (
        "nobody-asked-shell",
        "back",
        "no receiver asked for a file: start one, and see that its line is connected",
    ),
    (
        "eats-11-13",
        "there",
        (
            "frames came short, and no 11 or 13 in them: turn XON/XOFF off at both ends and between"
            " them"
        ),
    ),
    (
        "seven-bits",
        "there",
        "only seven bits of each byte came: set the line to eight bits and no parity",
    ),
    (
        "xmodem-sender",
        "there",
        "the sender names no file, as XMODEM does: start it as a sender of YMODEM",
    ),
    (
        "ymodem-g-receiver",
        "back",
        "the receiver asks by G, as YMODEM-g does: start it as a receiver of YMODEM",
    ),
    (
        "zmodem-receiver",
        "back",
        "an end speaks ZMODEM: start it with sb or rb in place of sz or rz",
    ),
)


@cases(
    *(
        case("one way of a recorded session, %s: %s" % (way, name), name, way, sentence)
        for name, way, sentence in ONE_WAY
    )
)
def test_one_way_is_told(name, way, sentence):
    _, _, text = record_of(name)
    with tempfile.TemporaryDirectory() as folder:
        path = os.path.join(folder, "one")
        with open(path, "wb") as it:
            it.write(ways(text)[way == "back"])
        lines = told("--" + way, path)
    assert lines and lines[-1] == sentence, "told %r, wanted %r" % (lines[-1:], sentence)


@sentence("EOT alone, one way, is no missing frame")
def test_eot_alone_is_told():
    with tempfile.TemporaryDirectory() as folder:
        path = os.path.join(folder, "one")
        with open(path, "wb") as it:
            it.write(b"\x04\x04")
        lines = told("--there", path)
    assert lines[-1] == (
        "EOT came and no block: start both ends again, and record from before they start"
    ), ("told %r" % lines)


# What a board at picocom's line writes, and what a sender on it does.
PICOCOM = (
    ("nobody-answered", "back", "the receiver asked and no frame came: start the sender"),
    (
        "nobody-asked-shell",
        "back",
        "no receiver asked for a file: start one, and see that its line is connected",
    ),
    (
        "eats-1a",
        "there",
        "frames came short, and no 1A in them: set the line to raw, so that it carries every byte",
    ),
    (
        "whole-short-blocks",
        "there",
        "the sender wrote its whole batch: what the receiver answered is not in the file",
    ),
)


@cases(
    *(
        case("a log of picocom, %s: %s" % (way, name), name, way, sentence)
        for name, way, sentence in PICOCOM
    )
)
def test_picocom_log_is_told(name, way, sentence):
    """What `picocom --logfile` writes of one way of a line is the bytes of that way, and no
    more."""
    needs("picocom")
    data = ways(record_of(name)[2])[way == "back"]
    with tempfile.TemporaryDirectory() as folder, plug() as it:
        log = os.path.join(folder, "log")
        with picocom("picocom --logfile %s %s" % (log, it.path), folder, os.environ):
            os.write(it.inner, data)
            wait_until(lambda: os.path.getsize(log) >= len(data), "picocom wrote all that came")
        with open(log, "rb") as file:
            assert file.read() == data, "the log has other bytes than the line"
        lines = told("--" + way, log)
    assert lines and lines[-1] == sentence, "told %r, wanted %r" % (lines[-1:], sentence)
