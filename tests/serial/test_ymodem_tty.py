"""Transfers by `ymodem-tty`: on a terminal by its path, whose settings it gives back, and on
standard input and output."""

import contextlib
import os
import re
import shutil
import subprocess

from support.cable import plug, settings
from support.cases import case, cases, sentence
from support.frames import END
from support.on_line import lock
from support.program import (
    ROOT,
    folders,
    wants_same,
    wants_stored,
    write_files,
    write_program,
)
from support.skipping import needs
from support.terminal import is_raw, joined
from support.tty_script import (
    AT_HAND,
    ENVIRONMENT,
    FILES,
    NAMES,
    RECEIVE,
    SCRIPT,
    SEND,
    is_running,
    piped,
    pseudo_terminal,
    wants_status,
)
from support.waits import wait_until


@cases(case("ymodem-tty send to rb", ["rb"], ("rb",)))
def test_over_terminal(peer, needed=()):
    """A transfer to a peer on pipes, from a terminal that is standard input and output, as terminal
    programs hand it over. Over pipes, a peer that asks twice would find that no read ends by
    itself."""
    needs(*needed)
    with folders() as (here, there), plug() as it:
        write_files(here, FILES)
        before = settings(it.path)
        end = os.open(it.path, os.O_RDWR | os.O_NOCTTY)
        with piped(peer, there) as other:
            joined(other.stdout.fileno(), it.inner)
            joined(it.inner, other.stdin.fileno())
            script = subprocess.Popen(
                [*SEND, *NAMES],
                cwd=here,
                env=ENVIRONMENT,
                stdin=end,
                stdout=end,
                stderr=subprocess.PIPE,
            )
            wants_status("ymodem-tty", script, 0)
            script.stderr.close()
            other.stdin.close()
            other.stdin = None
            wants_status(peer[0], other, 0)
        os.close(end)
        wants_same({"settings": settings(it.path)}, {"settings": before})
        wants_stored(there, FILES)


@cases(
    case("ymodem-tty send, cancelled by its peer", ["send", "none"], b"\x18\x18", 1),
    case("ymodem-tty receive, cancelled by its peer", ["receive"], b"\x18\x18", 1),
    case("ymodem-tty send, of a file that is not there", ["send", "nowhere"], b"", 3),
    case("ymodem-tty receive, of a batch of nothing", ["receive"], END, 0),
)
def test_keeps_status(words, given, status):
    """Fails where ymodem-tty ends otherwise than the program, at whose line these bytes come."""
    with folders() as (here, _):
        write_files(here, FILES)
        with piped([SCRIPT, *words], here) as script:
            script.stdin.write(given)
            script.stdin.flush()
            wants_status(" ".join(words), script, status)


@sentence("ymodem-tty without ymodem")
def test_without_ymodem():
    """It says that ymodem is missing."""
    with folders() as (here, there):
        for name in ("sh", "sed", "stty"):
            os.symlink(shutil.which(name), os.path.join(there, name))
        environment = {**ENVIRONMENT, "PATH": there}
        del environment["YMODEM"]
        with piped(
            ["/bin/sh", shutil.copy(SCRIPT, here), "send", "a"], here, environment
        ) as script:
            said = wants_status("ymodem-tty", script, 127)
        assert "ymodem is missing" in said, "it said %r" % said


@cases(
    case("ymodem-tty of another command", ["sb", "a"], 2, "'sb' is no command"),
    case(
        "ymodem-tty of another flow control",
        ["--flow", "some", "send", "a"],
        2,
        "'some' is no flow control",
    ),
    case(
        "ymodem-tty of a device that is not there",
        ["--device", "/dev/nothing", "receive", "--verbose"],
        3,
        "no such device",
    ),
    case(
        "ymodem-tty of a device that is named like an option",
        ["--device", "-x", "receive", "--verbose"],
        3,
        "cannot open './-x': no such device",
    ),
)
def test_refuses(words, status, wanted):
    """Words that are refused, and what is said of them."""
    with folders() as (here, _), piped([SCRIPT, *words], here) as script:
        said = wants_status("ymodem-tty", script, status)
        assert wanted in said, "it said %r" % said


def readme_line(job):
    """What the README says to type for a device."""
    with open(os.path.join(ROOT, "README.md"), encoding="utf-8") as it:
        found = re.findall(r"^ymodem-tty .*\b%s\b.*$" % job, it.read(), re.M)
    assert len(found) == 1, "the README has %d lines to %s" % (len(found), job)
    return found[0]


@cases(
    case("the README's line to send, to rb", "send", ["rb"], ("rb",)),
    case("the README's line to receive, from sb", "receive", ["sb", "firmware.bin"], ("sb",)),
)
def test_by_readme(job, peer, needed=()):
    """The README's line for a device, on a pseudo terminal as the system makes it, which has to be
    told to change no bytes."""
    needs(*needed)
    with folders() as (here, there), pseudo_terminal() as (
        line,
        far,
    ), contextlib.ExitStack() as later:
        typed = readme_line(job).replace("/dev/ttyUSB0", os.ttyname(far))
        near, away = (here, there) if job == "send" else (there, here)
        write_files(here, [("firmware.bin", FILES[0][1])])
        script = later.enter_context(piped(["sh", "-c", typed], near, AT_HAND))
        wait_until(lambda: is_raw(line), "the line changes no bytes")
        other = later.enter_context(piped(peer, away))
        joined(other.stdout.fileno(), line)
        joined(line, other.stdin.fileno())
        wants_status(typed, script, 0)
        other.stdin.close()
        other.stdin = None
        wants_status(peer[0], other, 0)
        with open(os.path.join(there, "firmware.bin"), "rb") as it:
            wants_same({"firmware.bin": it.read()}, dict([("firmware.bin", FILES[0][1])]))


@cases(
    case("ymodem-tty --device send to rb", "send", ["--speed", "115200"], ["rb"], ("rb",)),
    case(
        "ymodem-tty --device receive from sb",
        "receive",
        ["--speed=9600"],
        ["sb", "firmware.bin"],
        ("sb",),
    ),
)
def test_by_device(job, words, peer, needed=()):
    """The README's line for a device, on a pseudo terminal, whose settings come back."""
    needs(*needed)
    with folders() as (here, there), plug() as it, contextlib.ExitStack() as later:
        near, away = (here, there) if job == "send" else (there, here)
        write_files(here, [("firmware.bin", FILES[0][1])])
        before = settings(it.path)
        script = later.enter_context(
            piped(
                [
                    SCRIPT,
                    "--device",
                    it.path,
                    *words,
                    job,
                    *(["firmware.bin"] if job == "send" else []),
                ],
                near,
            )
        )
        other = later.enter_context(piped(peer, away))
        joined(other.stdout.fileno(), it.inner)
        joined(it.inner, other.stdin.fileno())
        wants_status(job, script, 0)
        other.stdin.close()
        other.stdin = None
        wants_same({"settings": settings(it.path)}, {"settings": before})
        wants_stored(there, [("firmware.bin", FILES[0][1])])


# Tells its words, and does what it is.
TELLING_STTY = """#!/bin/sh
echo "$*" >> %s
exec %s "$@"
"""


@sentence("ymodem-tty of a device that another program has locked")
def test_busy():
    """A device that another program has locked: it is told, and its settings are never changed."""
    with folders() as (here, there), plug() as it:
        told = os.path.join(here, "told")
        telling = TELLING_STTY % (told, shutil.which("stty"))
        write_program(os.path.join(there, "stty"), telling)
        environment = {**ENVIRONMENT, "PATH": there + ":" + ENVIRONMENT["PATH"]}
        words = ["send", "--verbose", *write_files(here, FILES[:1])]
        held = lock(it.path)
        with piped([SCRIPT, "--device", it.path, *words], here, environment) as script:
            said = wants_status("ymodem-tty", script, 3)
        os.close(held)
        assert "cannot open '%s': another program has it open\n" % it.path in said, (
            "it said %r" % said
        )
        with contextlib.suppress(FileNotFoundError), open(told, encoding="utf-8") as calls:
            changes = [line for line in calls if line.split()[-1] not in ("-g", "size")]
            wants_same({"calls of stty": changes}, {"calls of stty": []})


# Tells that it runs, and waits until it may end, as one that finds its line busy.
LATE = """#!/bin/sh
echo > told
until [ -e go ]; do sleep 0.1; done
exit 3
"""


@sentence("ymodem-tty of a device that another program has got meanwhile")
def test_got_meanwhile():
    """Two are started at once, and the other one is first: the line stays as that needs it."""
    with folders() as (here, there), plug() as it:
        program = write_program(os.path.join(there, "late"), LATE)
        words = [SCRIPT, "--device", it.path, "receive"]
        with piped(words, here, {**ENVIRONMENT, "YMODEM": program}) as script:
            wait_until(lambda: os.path.exists(os.path.join(here, "told")), "the program runs")
            needed, held = settings(it.path), lock(it.path)
            write_files(here, [("go", b"")])
            wants_status("ymodem-tty", script, 3)
            wants_same({"settings": settings(it.path)}, {"settings": needed})
            os.close(held)


@cases(
    case(
        "a line that is set",
        ["send", "none"],
        ["-icanon", "-echo", "clocal", "min = 0", "time = 1", "-ixon"],
    ),
    case(
        "a line of some speed",
        ["--speed", "57600", "--flow=none", "receive"],
        ["57600", "-crtscts", "-ixon", "-ixoff"],
    ),
    case(
        "a line of hard flow control", ["--flow", "hard", "receive"], ["crtscts", "-ixon", "-ixoff"]
    ),
    case(
        "a line of soft flow control, to send",
        ["--flow", "soft", "send", "none"],
        ["-crtscts", "ixon", "-ixoff"],
    ),
    case(
        "a line of soft flow control, to receive",
        ["--flow", "soft", "receive"],
        ["-crtscts", "-ixon", "ixoff"],
    ),
)
def test_set_by(words, wanted):
    """What the line is set to, while it is used, and that its settings come back."""
    with folders() as (here, _), plug() as it:
        write_files(here, FILES)
        before = settings(it.path)
        with piped([SCRIPT, "--device", it.path, *words], here) as script:
            wait_until(lambda: is_running(script.pid), "a transfer began")
            said = subprocess.run(
                ["stty", "-F", it.path, "-a"], capture_output=True, text=True, check=True
            ).stdout
            os.write(it.inner, b"\x18\x18")
            wants_status("ymodem-tty", script, 1)
        for word in wanted:
            assert re.search(
                r"(^|[\s;])%s([\s;]|$)" % re.escape(word), said
            ), "the line was not set to %s: %s" % (word, said)
        wants_same({"settings": settings(it.path)}, {"settings": before})


@cases(
    case("sb to ymodem-tty receive", ["sb"], RECEIVE, ("sb",)),
    case("ymodem-tty send to ymodem-tty receive", SEND, RECEIVE),
    case(
        "ymodem-tty send --short to ymodem-tty receive --single DIR",
        [*SEND, "--short"],
        [*RECEIVE, "--single", "."],
    ),
)
def test_over_pipes(sender, receiver, needed=()):
    """A transfer from one command to another one, whose lines are joined by pipes."""
    needs(*needed)
    with folders() as (here, there):
        write_files(here, FILES)
        with piped(receiver, there) as receive, piped([*sender, *NAMES], here) as send:
            for one, other in ((send, receive), (receive, send)):
                joined(one.stdout.fileno(), other.stdin.fileno())
                one.stdout.close()
                other.stdin.close()
                # communicate() is to leave them alone, too
                one.stdout = other.stdin = None
            wants_status(sender[0], send, 0)
            wants_status(receiver[0], receive, 0)
        wants_stored(there, FILES)
