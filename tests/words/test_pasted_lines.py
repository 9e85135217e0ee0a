"""The commands of README.md and of docs/serial.md, as they stand there.

Each is typed in a new folder that has what is sent. What they name is put in its place: a pseudo
terminal for the device, and ports and paths that nobody else has."""

import contextlib
import os
import re
import shutil
import subprocess
from dataclasses import dataclass, field

from support.cable import plug, settings
from support.cases import case, cases, sentence
from support.pasted import (
    BLOCK,
    DEVICE,
    FIRMWARE,
    at_hand,
    blocks,
    folder_of,
    goes_well,
    page_text,
    shell,
)
from support.program import LIMIT, free_port, stored, wants_same
from support.skipping import needs
from support.terminal import is_raw, joined
from support.tree import tree
from support.waits import listeners, wait_until


PAGES = ("README.md", "docs/serial.md")
SENT = {"firmware.bin": FIRMWARE}
SETTINGS = {"settings.txt": b"a setting\n" * 90}


def without_remark(line):
    return line.partition("  # ")[0].rstrip()


def typed(page):
    """What the blocks of a page say to type at a shell."""
    for kind, lines in blocks(page_text(page)):
        if kind == "sh":
            yield from map(without_remark, lines)
        else:
            yield from (it[2:] for it in lines if it.startswith("$ "))


def command(start):
    """The command of these pages that begins so, of which there is one."""
    found = {it for page in PAGES for it in typed(page) if it.startswith(start)}
    assert len(found) == 1, "%d commands begin with %r" % (len(found), start)
    return found.pop()


# ---- A device


@dataclass
class Transfer:
    """A command that transfers firmware.bin over a device, and whom it is for."""

    start: str
    peer: tuple
    sends: bool = True
    before: tuple = field(default=())


@contextlib.contextmanager
def peer(transfer, folder, it):
    """The other end of the line, once the line is set."""
    wait_until(lambda: is_raw(it.inner), "the line changes no bytes")
    how = {"stdin": subprocess.PIPE, "stdout": subprocess.PIPE, "stderr": subprocess.DEVNULL}
    child = subprocess.Popen(transfer.peer, cwd=folder, **how)
    try:
        joined(it.inner, child.stdin.fileno())
        joined(child.stdout.fileno(), it.inner)
        yield
    finally:
        child.kill()
        child.communicate()


@sentence("as pasted: ls -l")
def test_shows_group():
    """The group that may open a device."""
    line = command("ls -l")
    with folder_of() as here, plug() as it, at_hand() as around:
        with shell(line, here, around, device=it.path) as child:
            said = goes_well(line, child).split()
        assert said[3] == it_group(it.path), "it shows %r" % said


def it_group(path):
    return subprocess.run(["stat", "-c", "%G", path], capture_output=True, text=True).stdout.strip()


@sentence("as pasted: stty -hupcl")
def test_keeps_hang_up():
    """The setting by which a port drops its lines at the end stays off behind `ymodem-tty`."""
    line = command("stty -F /dev/ttyUSB0 -hupcl")
    send = command("ymodem-tty --device /dev/ttyUSB0 --speed 115200 send")
    with folder_of(SENT) as here, plug() as it, at_hand() as around:
        for words in (line, line.replace("-hupcl", "-a")):
            with shell(words, here, around, device=it.path) as child:
                said = goes_well(words, child)
        assert " -hupcl" in said, "the line is set to %r" % said
        before = settings(it.path)
        with shell(send, here, around, device=it.path) as child:
            wait_until(lambda: settings(it.path) != before, "the line is set")
            os.write(it.inner, b"\x18\x18")
            child.wait(LIMIT)
        wants_same({"settings": settings(it.path)}, {"settings": before})


# ---- Connections, and two terminals that are joined


@sentence("as pasted: send and receive at a port")
def test_over_connection():
    """The two lines for a port."""
    port = str(free_port())
    receive, send = command("ymodem receive --port 4000"), command("ymodem send --port 4000")
    files = SENT | SETTINGS
    with folder_of() as there, folder_of(files) as here, at_hand() as around:
        with shell(receive, there, around, port=port) as receiver:
            wait_until(lambda: listeners(int(port)) or receiver.poll() is not None, "it listens")
            with shell(send, here, around, port=port) as sender:
                goes_well(send, sender)
            goes_well(receive, receiver)
        wants_same(stored(there), files)


@cases(
    case("as pasted: socat, then send", "socat TCP-L:", "ymodem send --port 7002", ("rb",), True),
    case(
        "as pasted: receive, then socat",
        "ymodem receive --port 7001",
        "socat TCP:",
        ("sb", "firmware.bin"),
        False,
    ),
)
def test_by_socat(first, second, peer_words, sends):
    """Two lines that stand together: a device as a port of this machine, and what calls it. The
    first one stays in the background, and the second is typed once it listens."""
    needs("socat", peer_words[0])
    port, here_files = free_port(), SENT if sends else {}
    listens, calls = (re.sub(r"\b700[12]\b", str(port), command(it)) for it in (first, second))
    with folder_of(here_files) as here, folder_of({} if sends else SENT) as there:
        with plug() as it, at_hand() as around:
            transfer = Transfer("", peer_words, sends)
            with shell(listens, here, around, device=it.path):
                wait_until(lambda: listeners(port), "it listens")
                with shell(calls, here, around, device=it.path), peer(transfer, there, it):
                    wait_until(lambda: stored(there) == stored(here) == SENT, "both have the file")


@sentence("as pasted: a rehearsal without hardware")
def test_rehearsal():
    """Two pseudo terminals that socat joins, in the order of the page."""
    needs("socat", "sb", "rb")
    text = page_text("docs/serial.md").partition("## A rehearsal without hardware")[2]
    (_, join), (_, lines) = list(blocks(text))[:2]
    with folder_of(SENT) as here, folder_of() as ends, at_hand() as around:
        places = {"near": os.path.join(ends, "near"), "far": os.path.join(ends, "far")}
        with shell(join[0], here, around, **places) as line:
            wait_until(lambda: len(os.listdir(ends)) == 2 or line.poll() is not None, "two ends")
            script = "\n".join(it[2:] for it in lines if it.startswith("$ "))
            with shell(script, here, around, **places) as child:
                said = goes_well(script, child).splitlines()
            shown = [it for it in lines if not it.startswith("$ ")]
            assert [shape(it) for it in said] == [shape(it) for it in shown], "it said %r" % said
            for name in ("incoming", "back"):
                wait_until(lambda: stored(os.path.join(here, name)) == SENT, "it is in %s" % name)


def shape(line):
    """A line that is printed, without the time and the mode of a file."""
    return re.sub(r"^(file \S+ \d+) [0-7]+ [0-7]+$", r"\1 TIME MODE", line)


# ---- Installing, and what no check leaves out


@sentence("as pasted: make install")
def test_installs():
    """The line that installs it, for a user whose home is another one."""
    line = command("make install")
    with tree() as it:
        home = os.path.join(it.calls, "home")
        os.mkdir(home)
        it.environment["HOME"] = home
        status, _, err = it.run("sh", "-c", line)
        assert status == 0, "%s: %s" % (line, err)
        assert os.access(os.path.join(home, ".local", "bin", "ymodem"), os.X_OK), "it is not there"
        assert shutil.which("ymodem-tty", path=os.path.join(home, ".local", "bin")), "no script"


PICOCOM = 'picocom -b 115200 --send-cmd "ymodem-tty send" --receive-cmd "ymodem-tty receive" '
# Those that another file of tests types.
ELSEWHERE = {
    PICOCOM + DEVICE: "serial/test_terminal_programs.py",
    "picocom -b 115200 " + DEVICE: "uboot/test_typed.py",
    "gzip -c firmware.bin | tail -c 8 | od -An -N 4 -t x4": "uboot/test_typed.py",
}
SET = ("stty -F /dev/ttyUSB0 115200",)
TRANSFERS = [
    Transfer("ymodem-tty --device /dev/ttyUSB0 --speed 115200 send", ("rb",)),
    Transfer("ymodem-tty --device /dev/ttyUSB0 --speed 115200 rec", ("sb", "firmware.bin"), False),
    Transfer("ymodem sb --line", ("rb",), before=SET),
    Transfer("ymodem rb --line", ("sb", "firmware.bin"), False, SET),
]


@cases(*(case("as pasted: %s .." % it.start, it) for it in TRANSFERS))
def test_over_device(transfer):
    needs(transfer.peer[0])
    line, files = command(transfer.start), (SENT, {})
    near, away = files if transfer.sends else reversed(files)
    with folder_of(near) as here, folder_of(away) as there, plug() as it, at_hand() as around:
        for first in map(command, transfer.before):
            with shell(first, here, around, device=it.path) as child:
                goes_well(first, child)
        with shell(line, here, around, device=it.path) as child, peer(transfer, there, it):
            goes_well(line, child)
        wait_until(lambda: stored(here) == stored(there) == SENT, "both have the file")


STARTS = [
    *(it.start for it in TRANSFERS),
    *SET,
    "ls -l",
    "stty -F /dev/ttyUSB0 -hupcl",
    "ymodem receive --port 4000",
    "ymodem send --port 4000",
    "socat TCP-L:",
    "ymodem send --port 7002",
    "ymodem receive --port 7001",
    "socat TCP:",
    "socat -d -d pty",
    "sb firmware.bin < /tmp/far",
    "mkdir incoming",
    "mkdir back",
    "ymodem-tty --device /tmp/near send",
    "make install",
]


@sentence("each command of README.md and docs/serial.md is tried")
def test_none_is_left_out():
    tried = {command(it) for it in STARTS} | set(ELSEWHERE)
    found = {it for page in PAGES for it in typed(page)}
    assert found == tried, "not tried: %r; not there: %r" % (found - tried, tried - found)
    for page in PAGES:
        assert "\n\n    " not in BLOCK.sub("", page_text(page)), "%s has a block of no kind" % page
