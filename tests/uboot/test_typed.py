"""What a person types to bring a file to U-Boot in QEMU over a serial device, which is a pseudo
terminal here: as docs/serial.md shows it, and as `ymodem --help` does."""

import contextlib
import os
import re
import signal
import threading
import time
import zlib

import pytest
from support.cable import plug
from support.cases import case, cases, sentence
from support.help_texts import said_of
from support.pasted import DEVICE, FIRMWARE, at_hand, blocks, folder_of, goes_well, page_text, shell
from support.picocom import KEY_TO_LEAVE_SET
from support.program import LIMIT
from support.qemu import board
from support.pulse import beating
from support.skipping import Skipped, needs
from support.terminal import UnderTerminal
from support.uboot_boards import ARM64, PROMPT


READY = rb"## Ready for binary"


class Cable:
    """The inner end of a pseudo terminal, as what carries a board's port to it wants a line. Where
    it is bad, nothing of the board arrives as it was."""

    def __init__(self, end):
        self.end, self.is_bad = end, False

    def recv(self, count):
        try:
            return os.read(self.end, count)
        except OSError:
            return b""  # it was pulled

    def sendall(self, data):
        data = b"?" * len(data) if self.is_bad else data
        while data:
            data = data[os.write(self.end, data) :]

    def close(self):
        pass


@contextlib.contextmanager
def u_boot(it):
    """U-Boot, turned on now, with its serial port on this pseudo terminal."""
    if not os.path.exists(ARM64.image):
        raise Skipped("U-Boot: there is no %s" % ARM64.image)
    words = ("-bios", ARM64.image)
    with board(*words, memory=ARM64.memory, machine=ARM64.machine) as (port, _):
        port.sender = Cable(it.inner)
        threading.Thread(target=port.carry, args=(port.sender,), daemon=True).start()
        yield port


def at_prompt(port):
    """Stops the count, from the board's side."""
    port.sees(rb"Hit any key to stop autoboot")
    port.type(b"\r")
    return port.sees(PROMPT).end()


def sum_told(text):
    return re.search(r"==> ([0-9a-f]{8})", text)


# ---- The session of docs/serial.md


def session_lines():
    text = page_text("docs/serial.md").partition("## A session with U-Boot, as typed\n")[2]
    text = text.partition("\n## Rights")[0]
    return [it for kind, lines in blocks(text) if kind == "console" for it in lines]


class Session:
    """The lines of a page, played one by one: what is typed at the shell and at the prompt of the
    board, and what each shows."""

    def __init__(self, it, folder, around, later):
        self.it, self.folder, self.around, self.later = it, folder, around, later
        self.terminal, self.said = None, []

    def play(self, line):
        if line.startswith("$ picocom"):
            self.open(line[2:])
        elif line.startswith("$ "):
            self.leave()
            with shell(line[2:], self.folder, self.around, device=self.it.path) as child:
                self.said = goes_well(line, child).splitlines()
        elif line.startswith("=> "):
            self.terminal.type(line[3:].encode() + b"\r")
            self.terminal.sees(line[3:].encode())
        elif self.terminal:
            self.terminal.sees(line.encode())
            if line.startswith("Hit any key"):
                self.terminal.type(b"\r")
                self.terminal.sees(PROMPT[-3:])
        else:
            assert self.said and self.said.pop(0) == line, "it did not say %r" % line

    def open(self, line):
        """A terminal program, and, where it is the first one, the board is turned on."""
        is_first = not hasattr(self, "port")
        words = ["sh", "-c", line.replace(DEVICE, self.it.path)]
        environment = {**self.around, "HOME": self.folder}
        self.terminal = UnderTerminal(words, cwd=self.folder, env=environment)
        self.later.callback(self.terminal.stop)
        self.terminal.sees(b"Terminal ready")
        if is_first:
            self.port = self.later.enter_context(u_boot(self.it))

    def leave(self):
        if self.terminal:
            self.terminal.type(b"\x01" + KEY_TO_LEAVE_SET)
            self.terminal.sees(b"Thanks for using picocom")
            assert self.terminal.ended() == 0, "picocom did not end well"
            self.terminal = None


@sentence("U-Boot: the session of docs/serial.md, as typed")
def test_session_of_page():
    needs("picocom")
    with folder_of({"firmware.bin": FIRMWARE}) as here, at_hand() as around, plug() as it:
        with contextlib.ExitStack() as later:
            session = Session(it, here, around, later)
            for line in session_lines():
                session.play(line)
            session.leave()
    told = sum_told("\n".join(session_lines()))
    assert told and int(told[1], 16) == zlib.crc32(FIRMWARE), "the page has another sum"


# ---- The three commands of the help


def commands_of_help():
    """The block of the help that has the three commands."""
    found = re.search(r"three commands[^$]*?\n\n((?:  [^\n]+\n)+)", said_of())
    assert found, "the help has no three commands"
    lines = [it.strip() for it in found[1].splitlines()]
    assert len(lines) == 3, "the help has other commands: %r" % lines
    return lines


@sentence("U-Boot: the three commands of ymodem --help")
def test_by_help():
    """Somebody who reads nothing but `ymodem --help` brings a file to U-Boot."""
    first, second, third = commands_of_help()
    with folder_of({"firmware.bin": FIRMWARE}) as here, at_hand() as around, plug() as it:
        with u_boot(it) as port:
            start = at_prompt(port)
            port.type(first.encode() + b"\r")
            port.sees(READY, start)
            with shell(second, here, around, device=it.path) as child:
                goes_well(second, child)
            start = port.sees(rb"## Total Size.*" + PROMPT, start).end()
            port.type(third.encode() + b"\r")
            summed = port.sees(rb"==> ([0-9a-f]{8})\r?" + PROMPT, start)
            assert int(summed[1], 16) == zlib.crc32(FIRMWARE), "its sum is %r" % summed[1]


def interrupt(_, child):
    """Ctrl-C, in the middle of a file."""
    os.kill(child.pid, signal.SIGINT)


def damage(port, _):
    """From here on no answer of the board arrives, so that `send` gives up."""
    port.sender.is_bad = True


@cases(
    case("U-Boot: loady ends where ymodem-tty is interrupted", interrupt, -signal.SIGINT),
    case("U-Boot: loady ends where ymodem-tty send gives up", damage, 1),
)
def test_loady_ends(break_off, status):
    """`loady` ends with `ymodem-tty`: the prompt comes back, and takes a command."""
    files = {"firmware.bin": bytes(range(256)) * 40_000}
    first, second, _ = commands_of_help()
    with folder_of(files) as here, at_hand() as around, plug() as it, u_boot(it) as port:
        start = at_prompt(port)
        port.type(first.encode() + b"\r")
        start = port.sees(READY, start).end()
        with shell("exec " + second, here, around, device=it.path) as child:
            # it has taken some blocks
            port.sees(rb"(?:[^\x06]*\x06){20}", start)
            break_off(port, child)
            assert child.wait(LIMIT) == status, "it ended with status %d" % child.returncode
        back = port.sees(PROMPT, start)
        # By itself it waits for more than a minute, and tells that time is out.
        told = bytes(port.said[start : back.start()])
        assert b"Timed out" not in told, "it was not cancelled: %r" % told[-500:]
        start = back.end()
        port.type(b"echo still here\r")
        port.sees(rb"\nstill here\r?" + PROMPT, start)


@sentence("U-Boot: its speed is changed as docs/serial.md says")
def test_changes_speed():
    """What the board asks for where its speed is changed as docs/serial.md says. In QEMU its port
    has no speed, and does not go on behind that."""
    line = re.search(r"`(setenv baudrate \d+)`", page_text("docs/serial.md"))[1]
    with plug() as it, u_boot(it) as port:
        start = at_prompt(port)
        port.type(line.encode() + b"\r")
        told = rb"Switch baudrate to %s bps and press ENTER" % line.split()[2].encode()
        port.sees(told, start)


# Seconds for which docs/serial.md says that it waits, and by how many it may be wrong.
WAITS, MORE_OR_LESS = 90, 5


@pytest.mark.long
@sentence("U-Boot: how long loady waits for a sender that never comes")
def test_waits():
    text = page_text("docs/serial.md")
    assert "`loady` waits for some %d seconds" % WAITS in text, "the page tells other seconds"
    with ARM64.started() as port:
        start = ARM64.ready(port, b"")
        began = time.monotonic()
        port.sees(PROMPT, start)
        seconds = time.monotonic() - began
    beating().note(began, WAITS + MORE_OR_LESS)
    assert abs(seconds - WAITS) <= MORE_OR_LESS, "it waited for %.1f s" % seconds
