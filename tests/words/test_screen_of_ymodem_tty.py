"""What a person sees on terminals of 40, 80 and 200 columns: of `ymodem-tty` on a serial line,
which is a pseudo terminal, of what is refused, and of the help."""

import contextlib
import os
import re
import socket
import threading

from support.cable import plug
from support.cases import case, cases
from support.frames import CANCEL, header
from support.help_texts import said_of
from support.on_line import peer
from support.program import (
    LIMIT,
    PROGRAM,
    ROOT,
    folders,
    free_port,
    stored,
    wants_stored,
    write_files,
)
from support.screen import screen
from support.screen_lines import WIDTHS, gives, is_progress, packed, takes, told
from support.skipping import needs
from support.telling import FILE
from support.terminal import joined


SCRIPT = os.path.join(ROOT, "share", "ymodem-tty")
STOPPED = "ymodem-tty: interrupted, and the other end was told"
NAME = FILE[0][0]


@contextlib.contextmanager
def on_line(columns, folder, *words):
    """`ymodem-tty` on a screen, in a folder, and the other end of its line."""
    with plug() as it, contextlib.ExitStack() as later:
        line = (SCRIPT, "--device", it.path, *words)
        script = ("sh", "-c", 'cd "$1" && shift && exec "$@"', "sh", folder, *line)
        yield it, later.enter_context(screen(columns, *script, YMODEM=PROGRAM))


@contextlib.contextmanager
def other_end(it, play):
    """One who plays the other end, as if it were a connection."""
    mine, theirs = socket.socketpair()
    mine.settimeout(LIMIT)
    joined(it.inner, theirs.fileno())
    joined(theirs.fileno(), it.inner)

    def plays():
        # it is broken off where that is tried
        with contextlib.suppress(ConnectionError, AssertionError):
            play(mine)

    thread = threading.Thread(target=plays, daemon=True)
    thread.start()
    with mine, theirs:
        yield mine
        thread.join(LIMIT)


class Patient:
    """The other end of a line, where one that would cancel waits instead until the line is gone."""

    def __init__(self, end):
        self.end = end

    def recv(self, count):
        return self.end.recv(count)

    def sendall(self, data):
        if data != CANCEL:
            return self.end.sendall(data)
        while self.end.recv(64):
            pass


def shows(columns, *lines):
    """Lines as they stand on the screen, which has no spaces at the end of a line."""
    return [it.rstrip() for it in told(columns, *lines)]


def is_at(lines):
    return any(is_progress(it) for it in lines)


@cases(
    *(case("a screen of %d: ymodem-tty to rb" % it, it, True) for it in WIDTHS),
    *(case("a screen of %d: ymodem-tty from sb" % it, it, False) for it in WIDTHS),
)
def test_transfers(columns, sends):
    """A file to `rb` and from `sb` of lrzsz: each line of it."""
    words, other = (("send", NAME), ["rb"]) if sends else (("receive",), ["sb", NAME])
    needs(other[0])
    with folders() as (here, there):
        write_files(here, FILE)
        near, away = (here, there) if sends else (there, here)
        with on_line(columns, near, "--speed", "57600", *words) as (it, shown):
            shown.sees(lambda lines: any("waiting for" in it for it in lines))
            with peer(other, away, it.inner):
                lines = shown.ended()
        wants_stored(there, FILE)
    first = packed("the line is '%s'" % it.path)
    assert packed("".join(lines)).startswith(first) == True, "the first lines"
    end = r"first\.bin: 5120 bytes in \d+\.\d s(, \d+ k?B/s)?"
    end += r"sender done 1 finished" if sends else r"file first\.bin 5120 [0-7]+ 100[0-7]+"
    end += "" if sends else "receiver files 1 finished"
    end += re.escape("[ended 0]")
    end = end.replace("\\ ", "").replace(" ", "") + "$"
    assert re.search(end, packed("".join(lines))), "it does not end so: %r" % lines


@cases(
    *(case("a screen of %d: ymodem-tty send is stopped" % it, it, True) for it in WIDTHS),
    *(case("a screen of %d: a part is left" % it, it, False) for it in WIDTHS[:-1]),
    case("a part that is left is told by its path", WIDTHS[-1], False),
)
def test_interrupted(columns, sends):
    """Ctrl-C in the middle of a file: the line of how far it was ends, and it says what is left."""
    words = ("send", NAME) if sends else ("receive", "got")
    # who cancels is patient already
    seen = threading.Event()
    seen.set()
    play = takes(4, seen) if sends else gives(FILE, 3, seen)

    def waits(end):
        play(Patient(end))

    with folders() as (here, _):
        os.mkdir(os.path.join(here, "got"))
        write_files(here, FILE)
        with on_line(columns, here, *words) as (it, shown), other_end(it, waits) as end:
            shown.sees(is_at)
            shown.type("C-c")
            lines = shown.ended()
            end.shutdown(socket.SHUT_RDWR)
        left = stored(os.path.join(here, "got"))
    assert list(left) == ([] if sends else [NAME + ".part"]), "what is there"
    part = "ymodem-tty: 'got/first.bin.part' is left of a file: "
    part += "receive again, which replaces it, or remove it"
    end = shows(columns, STOPPED, *([] if sends else [part]), "[ended 130]")
    assert lines[-len(end) :] == end, "the end"
    at = lines[-len(end) - 1]
    assert (is_progress(at) is not None) == True, "whether the line before tells how far it was"


@cases(*(case("a screen of %d: a part is replaced" % it, it) for it in WIDTHS))
def test_replaces(columns):
    """What an earlier run left is replaced: that is told in as many lines as it needs."""
    with folders() as (here, there):
        write_files(here, FILE)
        write_files(there, [(NAME + ".part", b"left")])
        with on_line(columns, there, "receive") as (it, shown):
            shown.sees(lambda lines: any("waiting for" in it for it in lines))
            with peer([PROGRAM, "sb", NAME], here, it.inner):
                lines = shown.ended()
        wants_stored(there, FILE)
    line = shows(columns, "'%s.part', left from an earlier run, was replaced" % NAME)
    starts = [at for at in range(len(lines)) if lines[at : at + len(line)] == line]
    assert len(starts) == 1, "how often it was told"


# Times as `date -u` tells them, and modes as `ls -l` does.
STAMPS = (
    (b"5120 15300550564 100644", "5120 bytes, 2026-11-22 11:26:44 UTC, rw-r--r--"),
    (b"5120 0 100755", "5120 bytes, rwxr-xr-x"),
    (b"5120 15300550564", "5120 bytes, 2026-11-22 11:26:44 UTC"),
    (b"5120", "5120 bytes"),
)


@cases(
    *(case("a screen of %d: what comes is told, --verbose" % it, it, True) for it in WIDTHS),
    *(case("a screen of %d: what comes is not told" % it, it, False) for it in WIDTHS),
)
def test_introduces(columns, is_asked):
    """What a header tells of its file is shown as people write it, where that is asked for."""
    for stamp, text in STAMPS:
        asked = ["--verbose"] if is_asked else []
        with folders() as (here, _):
            os.mkdir(os.path.join(here, "got"))
            with on_line(columns, here, "receive", *asked, "got") as (it, shown):
                shown.sees(lambda lines: any("waiting for" in it for it in lines))
                with other_end(it, lambda end: end.sendall(header(NAME.encode(), stamp) + CANCEL)):
                    lines = shown.ended()
        line = shows(columns, "receiving %s, %s" % (NAME, text))
        starts = [at for at in range(len(lines)) if lines[at : at + len(line)] == line]
        assert len(starts) == (1 if is_asked else 0), "how often %r was told" % line
        assert any("receiving" in it for it in lines) == is_asked, "what else tells of it"


@cases(*(case("a screen of %d: cancelled on a line" % it, it) for it in WIDTHS))
def test_cancelled(columns):
    """The other end cancels, on a line."""
    with folders() as (here, _), on_line(columns, here, "receive") as (it, shown):
        with other_end(it, lambda end: end.recv(1) and end.sendall(CANCEL)):
            lines = shown.ended()
    end = ("receiver files 0 cancelled", "the other end cancelled (CAN CAN)", "[ended 1]")
    assert lines[-len(end) :] == shows(columns, *end), "the end"


@cases(*(case("a screen of %d: ymodem-tty refuses words" % it, it) for it in WIDTHS))
def test_refused(columns):
    """What `ymodem-tty` says of words that it does not know: why, and its usage."""
    with screen(columns, SCRIPT, "receive", "--frob") as it:
        lines = it.ended()
    said = "ymodem-tty: '--frob' is none of its options: "
    assert packed("".join(lines)).startswith(packed(said)) == True, "why"
    usage = [
        "Usage: ymodem-tty [LINE] send [OPTIONS] FILE..",
        "       ymodem-tty [LINE] receive [OPTIONS] [DIR]",
    ]
    assert (packed("".join(usage)) in packed("".join(lines))) == True, "its usage"
    assert lines[-1] == "[ended 2]", "its status"


@cases(*(case("a screen of %d: a port in use" % it, it) for it in WIDTHS))
def test_in_use(columns):
    """The port is in use."""
    with socket.create_server(("127.0.0.1", 0)) as listener, folders() as (_, there):
        port = listener.getsockname()[1]
        with screen(columns, PROGRAM, "receive", "-p", port, there) as it:
            text = "port %d is in use by another program: choose another one" % port
            assert it.ended() == told(columns, text, "fault: device", "[ended 3]"), "it told"


@cases(*(case("a screen of %d: no port" % it, it) for it in WIDTHS))
def test_no_port(columns):
    with screen(columns, PROGRAM, "send", "--port", "abc", "file") as it:
        text = "--port takes a number from 1 to 65535, in digits"
        assert it.ended() == told(columns, text, "fault: port", "[ended 2]"), "what it told"


def prompt(end):
    """A shell that shows what it gets, and a line more."""
    with contextlib.suppress(ConnectionError):
        while got := end.recv(64):
            end.sendall(got + b"\r\n-sh: C: not found\r\n# ")


PROMPT = re.escape(packed("what comes is no YMODEM: is a shell or a boot loader's prompt"))
COUNTS = r"waitingforthesender,[1-9]\d*sof30"


@cases(
    *(case("a screen of %d: it counts" % it, it, lambda _: None, COUNTS) for it in WIDTHS),
    *(case("a screen of %d: a prompt" % it, it, prompt, PROMPT) for it in WIDTHS),
)
def test_tells(columns, play, text):
    """What a receiver tells of a peer that plays so."""
    with folders() as (_, there), screen(
        columns, PROGRAM, "receive", "-p", port := free_port(), "--eager", there
    ) as it:
        it.sees(lambda lines: "listening on" in lines[0])
        with socket.create_connection(("127.0.0.1", port), timeout=LIMIT) as end:
            play(end)
            it.sees(lambda lines: re.search(text, packed("".join(lines))))


COMMANDS = ((), *((it,) for it in ("sb", "rb", "send", "receive", "play", "loop")))


@cases(
    *(
        case("a screen of %d: the help of %s" % (it, " ".join(words) or "ymodem"), it, (*words,))
        for words in COMMANDS
        for it in WIDTHS
    )
)
def test_help_of(columns, command=()):
    """Each line of the help stands on the screen, in as many lines as it needs there."""
    with screen(columns, PROGRAM, *command, "--help") as it:
        it.ended()
        lines = it.all_lines()
    text = said_of(*command).rstrip("\n").split("\n")
    wanted = [part.rstrip() for it in text for part in told(columns, it) or [""]]
    assert lines == [*wanted, "[ended 2]"], "the help"
