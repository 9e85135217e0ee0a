"""What a person sees of `send` and `receive` on terminals of 40, 80 and 200 columns: the whole
screen as text, as tmux keeps it."""

import contextlib
import os
import re
import socket
import threading
import time
import unicodedata

from support.cases import case, cases, sentence
from support.peers import called
from support.program import LIMIT, PROGRAM, ROOT, connected, folders, free_port, write_files
from support.screen import screen
from support.screen_lines import WIDTHS, gives, is_progress, packed, takes, told
from support.skipping import needs
from support.telling import DATA, FILE

ASKING = "waiting for the receiver to ask (C), "
LONG = "a name that is longer than a narrow terminal has room for.bin"
WIDE = "\u65e5\u672c\u8a9e\u306e\u540d\u524d\u3067\u66f8\u3044\u305f" * 3 + ".bin"


def cells(text):
    """How many cells a text takes, by the tables of Python."""
    wide = sum(unicodedata.east_asian_width(it) in "WF" for it in text)
    return len(text) + wide - sum(unicodedata.combining(it) > 0 for it in text)


def width_told(columns):
    """What tells the program how wide its terminal is, as `ymodem-tty` does it."""
    return {"COLUMNS": str(columns)}


@contextlib.contextmanager
def sending(columns, peer, files, **environment):
    """`send` on a screen, against this peer."""
    with folders() as (here, _), socket.create_server(("127.0.0.1", 0)) as listener:
        paths = write_files(here, files)

        def answer():
            with called(listener) as end:
                peer(end)

        thread = threading.Thread(target=answer, daemon=True)
        thread.start()
        words = (PROGRAM, "send", "-p", listener.getsockname()[1], *paths)
        with screen(columns, *words, **environment) as it:
            yield it
        thread.join(LIMIT)


@contextlib.contextmanager
def receiving(columns, peer, **environment):
    """`receive` on a screen, from this peer."""
    with folders() as (_, there):
        port = free_port()
        words = (PROGRAM, "receive", "-p", port, "--eager", there)
        with screen(columns, *words, **environment) as it:
            it.sees(lambda lines: "listening on" in lines[0])
            with connected(port) as end:
                thread = threading.Thread(target=peer, args=(end,), daemon=True)
                thread.start()
                yield it
                thread.join(LIMIT)


def progress_in(lines):
    """The line that tells how far a file is, of which there is one, and the last."""
    found = [it for it in lines if is_progress(it)]
    assert len(found) == 1, "how many lines tell how far it is"
    assert lines[-1] == found[0], "the line below which nothing stands"
    return found[0]


@cases(
    *(case("shows how far a file is: %d columns" % it, it, "firmware.bin") for it in WIDTHS),
    *(case("shows how far a file of a long name is: %d columns" % it, it, LONG) for it in WIDTHS),
    *(case("shows how far a file of a wide name is: %d columns" % it, it, WIDE) for it in WIDTHS),
)
def test_fits(columns, name):
    """A progress line stands in one line, with name, percent, rate and time left; and the line that
    is printed behind it stands alone."""
    seen = threading.Event()
    with sending(columns, takes(4, seen), [(name, DATA)], **width_told(columns)) as it:
        line = progress_in(it.sees(lambda lines: any(" left" in it for it in lines)))
        seen.set()
        more = "" if columns == 40 else r"\d+ of 5120 bytes, "
        assert re.search(r": \d+%, " + more + r"\d+ k?B/s, \d+:\d\d left$", line), (
            "the line is %r" % line
        )
        assert (cells(line) < columns) == True, "whether it fits"
        assert name.startswith(line.rpartition(": ")[0].partition(": ")[0]) == True, "the name"
        assert it.ended()[-3:] == told(columns, *CANCELLED), "the end"


CANCELLED = ("sender done 0 cancelled", "the other end cancelled (CAN CAN)", "[ended 1]")


@cases(*(case("cuts a line of a terminal of unknown width: %d columns" % it, it) for it in WIDTHS))
def test_is_cut(columns):
    """Where nothing tells how wide the terminal is, a progress line stands in one line, too."""
    seen = threading.Event()
    with sending(columns, takes(4, seen), [(LONG, DATA)]) as it:
        progress_in(it.sees(lambda lines: any(is_progress(it) for it in lines)))
        seen.set()
        lines = it.ended()
        assert lines[1:] == told(columns, *CANCELLED), "its lines"


@cases(*(case("ends a line before another: %d columns" % it, it) for it in WIDTHS))
def test_stands_alone(columns):
    """At a receiver that is cancelled in the middle of a file, nothing joins the line that told how
    far it was."""
    files, seen = [("first.bin", DATA), (LONG, DATA)], threading.Event()
    with receiving(columns, gives(files, 11, seen)) as it:
        it.sees(lambda lines: any(is_progress(it) and it.startswith("a name") for it in lines))
        seen.set()
        lines = it.ended()
        printed = ("file first.bin 5120 - -", "receiver files 1 cancelled")
        end = told(columns, *printed, *CANCELLED[1:])
        assert lines[-len(end) :] == end, "the end"
        whole = lines[-len(end) - 1]
        assert re.fullmatch(r"first\.bin: 5120 bytes in \d+\.\d s(, \d+ k?B/s)?", whole), (
            "the line before it is %r" % whole
        )


@cases(
    case("shows whom it waits for: 40 columns", 40, "waiting for C, "),
    case("shows whom it waits for: 80 columns", 80, ASKING),
    case("shows whom it waits for: 200 columns", 200, ASKING),
)
def test_waits_for(columns, text):
    """Whom `send` waits for, before anybody asks."""

    def peer(end):
        end.recv(1)

    with sending(columns, peer, FILE, **width_told(columns)) as it:
        counts_up(it, re.escape(text) + r"(\d+) s of 100", (0, 10))
        it.stop()


def counts_up(screen, pattern, seconds):
    """The last line of a screen counts seconds: so many, or on a machine that stood still for a
    while a later number of the same row."""
    step = seconds[1] - seconds[0]

    def counted(lines):
        found = re.fullmatch(pattern, lines[-1])
        return int(found[1]) if found else -1

    for at in seconds:
        told_then = counted(screen.sees(lambda lines, at=at: counted(lines) >= at))
        assert told_then % step == 0, "whether it counts by %d" % step


@sentence("counts for how long nothing has come")
def test_counts():
    """It counts for how long nothing has come."""
    with receiving(80, lambda end: end.recv(64)) as it:
        counts_up(it, r"waiting for the sender, (\d+) s of 30", (3, 6, 9))
        it.stop()


@sentence("tells of a prompt at the other end")
def test_at_a_prompt():
    """A shell at the other end, which shows what it gets, and a line more."""

    def peer(end):
        # it is reset where the program ends before all of that is read
        with contextlib.suppress(ConnectionError):
            while got := end.recv(64):
                end.sendall(got + b"\r\n-sh: C: not found\r\n# ")

    with receiving(80, peer) as it:
        text = "what comes is no YMODEM: is a shell or a boot loader's prompt at the other end?"
        assert (packed(text) in packed("".join(it.ended()))) == True, "what it told"


def says_forever(data):
    """A peer that is never quiet, and says no YMODEM."""

    def peer(end):
        with contextlib.suppress(OSError):  # the program has ended
            while True:
                end.sendall(data)
                time.sleep(0.02)

    return peer


@cases(
    case("tells early of rubbish", b"\xfe\x00\x81"),
    case("tells early of what a board logs", b"[ 1.2] eth0: link is up\r\n"),
)
def test_rubbish(data):
    """A line that is never quiet, on which `receive` gives up minutes later."""
    with receiving(200, says_forever(data)) as it:
        text = "what comes is no YMODEM so far: is the other end started, at the same speed?"
        it.sees(lambda lines: text in lines)
        it.stop()


SCRIPT = "reading a script, to its end (Ctrl-D)"


RECORD = "reading a record, to its end (Ctrl-D); else name one"


# What a capture begins with is read ahead of the rest: an end within that is come to twice.
@cases(
    case(
        "says that it reads a script", (), SCRIPT + "; `ymodem --help` tells what else there is", 1
    ),
    case("says that play reads a script", ("play",), SCRIPT, 1),
    case("says that explain reads a record", ("explain",), RECORD, 2),
)
def test_alone(words, text, ends):
    """Without a file it says what it reads at a terminal, and with no word how to get help."""
    for columns in WIDTHS:
        with screen(columns, PROGRAM, *words) as it:
            it.sees(lambda lines: packed(text) in packed("".join(lines)))
            it.type(*["C-d"] * ends)
            it.ended()


@sentence("tells the width of its terminal: ymodem-tty")
def test_width_of_a_line():
    """`ymodem-tty` tells the program how wide the terminal of standard error is."""
    needs("stty")
    for columns in WIDTHS:
        with folders() as (here, _):
            program = os.path.join(here, "program")
            with open(program, "w", encoding="utf-8") as it:
                it.write("#!/bin/sh\necho columns $COLUMNS >&2\n")
            os.chmod(program, 0o755)
            words = (os.path.join(ROOT, "share", "ymodem-tty"), "send", "file")
            script = '"$@" < /dev/null > /dev/null'
            with screen(columns, "sh", "-c", script, "sh", *words, YMODEM=program) as it:
                assert it.ended() == ["columns %d" % columns, "[ended 0]"], "what it told"


@sentence("says which ports there are")
def test_no_port():
    with screen(80, PROGRAM, "send", "--port", "abc", "file") as it:
        text = "--port takes a number from 1 to 65535, in digits"
        assert it.ended() == [text, "fault: port", "[ended 2]"], "what it told"
