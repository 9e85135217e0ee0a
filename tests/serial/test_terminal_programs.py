"""Terminal programs that hand their line over for a transfer, by `ymodem-tty`: picocom, minicom and
screen, each at work on a pseudo terminal. None of it needs `socat`."""

import contextlib
import os
import shutil
import subprocess
import termios

from support.cable import plug, settings
from support.cases import case, cases, sentence
from support.picocom import (
    KEY_TO_LEAVE_SET,
    KEY_TO_RECEIVE,
    KEY_TO_SEND,
    KEY_TO_SET_BACK,
    picocom,
    recipe,
    transfer,
)
from support.program import folders, wants_same, wants_stored, write_files
from support.skipping import needs
from support.terminal import UnderTerminal, joined
from support.tty_script import (
    AT_HAND,
    FILES,
    NAMES,
    RECEIVE,
    SCRIPT,
    SEND,
    piped,
    pseudo_terminal,
    wants_status,
)


# minicom's own two protocols, as docs/serial.md tells to set them.
MINIRC = """pu pname1 YUNYYymodem
pu pprog1 ymodem-tty send
pu pname2 NDNYNymodem
pu pprog2 ymodem-tty receive
pu updir %s
pu downdir %s
pu rtscts No
"""


@cases(
    case("minicom sends to rb", True, ["rb"], ("rb",)),
    case("minicom sends to ymodem", True, RECEIVE),
    case("minicom receives from sb", False, ["sb", "one.bin"], ("sb",)),
    case("minicom receives from ymodem", False, [*SEND, "one.bin"]),
)
def test_under_minicom(from_here, peer, needed=()):
    """minicom on a pseudo terminal, at whose other end is a peer on pipes."""
    needs("minicom", *needed)
    with folders() as (here, there), plug() as it, contextlib.ExitStack() as later:
        write_files(here, FILES[:1])
        with open(os.path.join(os.path.dirname(here), ".minirc.dfl"), "w", encoding="utf-8") as rc:
            rc.write(MINIRC % (here, there))
        near, away = (here, there) if from_here else (there, here)
        shown = UnderTerminal(
            ["minicom", "-D", it.path, "-o"],
            cwd=near,
            env={**AT_HAND, "HOME": os.path.dirname(here)},
        )
        later.callback(shown.stop)
        shown.sees(b"Press CTRL-A")
        other = later.enter_context(piped(peer, away))
        joined(other.stdout.fileno(), it.inner)
        joined(it.inner, other.stdin.fileno())
        shown.type(b"\x01s" if from_here else b"\x01r")
        shown.sees(b"ymodem")
        shown.type(b"\r")
        if from_here:
            shown.sees(b"Space to tag")
            shown.type(b"\r")
            shown.sees(b"enter filename:")
            shown.type(b"one.bin\r")
        shown.sees(b"READY: press any key")
        wants_stored(there, FILES[:1])


@cases(
    case("screen sends to rb", b"ymodem-tty send one.bin", True, ["rb"], ("rb",)),
    case("screen receives from sb", b"ymodem-tty receive", False, ["sb", "one.bin"], ("sb",)),
)
def test_under_screen(words, from_here, peer, needed=()):
    """screen on a pseudo terminal, at whose other end is a peer on pipes. It runs these words on
    its line, as its command `exec !!` does."""
    needs("screen", *needed)
    with folders() as (here, there), plug() as it, contextlib.ExitStack() as later:
        write_files(here, FILES[:1])
        near, away = (here, there) if from_here else (there, here)
        home = os.path.dirname(here)
        os.chmod(home, 0o700)
        place = {**AT_HAND, "HOME": home, "SCREENDIR": home}
        words_of_it = ["screen", "-S", "line", it.path, "115200"]
        shown = UnderTerminal(words_of_it, cwd=near, env=place)
        later.callback(shown.stop)
        quits = ["screen", "-S", "line", "-X", "quit"]
        how = {"stdout": subprocess.DEVNULL, "stderr": subprocess.DEVNULL}
        later.callback(subprocess.run, quits, env=place, **how)
        # it drops what has come before it has the line
        while not shown.shows(b"here is the line"):
            os.write(it.inner, b"here is the line\r\n")
        other = later.enter_context(piped(peer, away))
        joined(other.stdout.fileno(), it.inner)
        joined(it.inner, other.stdin.fileno())
        shown.type(b"\x01:")
        shown.sees(b"\x1b[7m:")
        shown.type(b"exec !! %s\r" % words)
        shown.sees(b"finished")
        wants_status(peer[0], other, 0)
        wants_stored(there, FILES[:1])


@sentence("a line that picocom has is busy")
def test_busy_with_picocom():
    """A line that picocom has is busy, and its settings stay as picocom made them."""
    needs("picocom")
    with folders() as (here, _), plug() as it:
        path = write_files(here, FILES[:1])[0]
        with picocom("picocom -b 115200 %s" % it.path, here, AT_HAND):
            before = settings(it.path)
            with piped([SCRIPT, "--device", it.path, "send", "--verbose", path], here) as script:
                said = wants_status("ymodem-tty", script, 3)
            assert "another program has it open" in said, "it said %r" % said
            wants_same({"settings": settings(it.path)}, {"settings": before})


def modes(end):
    """How a terminal is set, and beside it whether it hangs up at its last close."""
    kept = termios.tcgetattr(end)
    hangs_up = bool(kept[2] & termios.HUPCL)
    kept[2] &= ~termios.HUPCL
    return kept, hangs_up


@cases(
    case("picocom that is left by C-a C-q leaves its line set", KEY_TO_LEAVE_SET, True),
    case("picocom that is left by C-a C-x sets its line back", KEY_TO_SET_BACK, False),
)
def test_left_by(key, stays_set):
    """What docs/serial.md says of both keys. By the one the line does not hang up behind it, and by
    the other it does."""
    needs("picocom")
    with folders() as (here, _), plug() as it:
        before, _ = modes(it.outer)
        with picocom("picocom -b 57600 %s" % it.path, here, AT_HAND, key):
            needed, _ = modes(it.outer)
        assert needed != before, "picocom did not set its line"
        left = needed if stays_set else before
        wants_same({"modes": modes(it.outer)}, {"modes": (left, not stays_set)})


@sentence("no socat is at hand for ymodem-tty")
def test_hides_socat():
    """What these checks, and those of ymodem-tty, run has no `socat` at hand."""
    found = [shutil.which(it, path=AT_HAND["PATH"]) for it in ("socat", "stty", "ymodem-tty")]
    assert not found[0] and all(found[1:]), "at hand: %r" % found


TYPED = b'one.bin none "control bytes"'


@cases(
    case("picocom sends to rb", KEY_TO_SEND, TYPED, True, ["rb"], ("rb",)),
    case("picocom sends to ymodem", KEY_TO_SEND, TYPED, True, RECEIVE),
    case("picocom receives from sb", KEY_TO_RECEIVE, b"", False, ["sb", *NAMES], ("sb",)),
    case("picocom receives from ymodem", KEY_TO_RECEIVE, b".", False, [*SEND, *NAMES]),
)
def test_under_picocom(key, typed, from_here, peer, needed=()):
    """picocom, as docs/serial.md starts it, on a pseudo terminal, at whose other end is a peer on
    pipes. The key starts a transfer, for which the words are typed."""
    needs("picocom", *needed)
    with folders() as (here, there):
        write_files(here, FILES)
        near, away = (here, there) if from_here else (there, here)
        with pseudo_terminal() as (line, far), picocom(
            recipe("picocom .*").replace("/dev/ttyUSB0", os.ttyname(far)), near, AT_HAND
        ) as shown:
            # The peer comes now, since picocom has made the line one that changes no bytes.
            with piped(peer, away) as other:
                joined(other.stdout.fileno(), line)
                joined(line, other.stdin.fileno())
                transfer(shown, key, typed)
                other.stdin.close()
                other.stdin = None
                wants_status(peer[0], other, 0)
        wants_stored(there, FILES)
