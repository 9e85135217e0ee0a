"""The example programs of the library for C in the places of `sb` and `rb`: started by picocom, and
by socat as their first lines say."""

import contextlib
import os
import re
import subprocess

from support.cases import case, cases
from support.library import BUILT, example
from support.picocom import KEY_TO_RECEIVE, KEY_TO_SEND, picocom, transfer
from support.program import LIMIT, ROOT, folders, wants_stored, write_files
from support.skipping import needs
from support.terminal import is_raw, joined
from support.waits import wait_until


FILES = [
    ("firmware.bin", bytes(range(256)) * 160 + b"end"),
    ("none", b""),
    ("control bytes", b"\x18\x18\x04\x43\x11\x13" * 300),
]
NAMES = [name for name, _ in FILES]


@contextlib.contextmanager
def line():
    """The two ends of a line: pseudo terminals that socat joins, as somebody makes them to try a
    transfer without a cable."""
    with folders() as ends, contextlib.ExitStack() as later:
        paths = [os.path.join(end, "tty") for end in ends]
        words = ["socat", *("PTY,link=%s,raw,echo=0" % path for path in paths)]
        child = subprocess.Popen(
            words, stdin=subprocess.DEVNULL, stdout=subprocess.DEVNULL, stderr=subprocess.PIPE
        )
        later.callback(child.communicate)
        later.callback(child.kill)
        for path in paths:
            wait_until(lambda: os.path.exists(path), "socat has made a line")
            # socat ends where nobody has an end of it open any more.
            held = os.open(path, os.O_RDWR | os.O_NOCTTY)
            later.callback(os.close, held)
            wait_until(lambda: is_raw(held), "the line changes no bytes")
        yield paths


@contextlib.contextmanager
def at_end(words, end, folder):
    """A peer at an end of the line, on two pipes: `rb` leaves a terminal by dropping what is under
    way there, and that may be its last reply. It has to end well."""
    pipe = subprocess.PIPE
    held = os.open(end, os.O_RDWR | os.O_NOCTTY)
    child = subprocess.Popen(
        words, cwd=folder, stdin=pipe, stdout=pipe, stderr=pipe, start_new_session=True
    )
    try:
        joined(child.stdout.fileno(), held)
        joined(held, child.stdin.fileno())
        yield
        status = child.wait(LIMIT)
        assert status == 0, "%s: status %d: %s" % (
            words[0],
            status,
            child.stderr.read().decode(errors="replace"),
        )
    finally:
        os.close(held)
        child.kill()
        child.wait()
        for it in (child.stdin, child.stdout, child.stderr):
            it.close()


def c_receive():
    return [example("receive"), "."]


def c_send():
    return [example("send"), *NAMES]


def said_of(name):
    """The command for a line that stands at the head of an example."""
    with open(os.path.join(ROOT, "examples", "c", name + ".c"), encoding="utf-8") as it:
        found = re.search(r"As a line's end: (socat .*?)(?: \*/|\n)", it.read())
    assert found, "%s.c says no command for a line" % name
    return found[1]


@cases(
    case("socat starts send, as it says, to rb", "send", lambda: ["rb", "-q"], ("rb",)),
    case(
        "socat starts receive, as it says, from sb",
        "receive",
        lambda: ["sb", "-q", *NAMES],
        ("sb",),
    ),
)
def test_started_by_socat(name, peer, needed=()):
    """The example's own line, with an end of the line in the place of the serial port."""
    needs("socat", *needed)
    sends = name == "send"
    with folders() as (here, there), line() as (near, far):
        write_files(here, FILES)
        kept = there if sends else os.path.join(there, "incoming")
        os.makedirs(kept, exist_ok=True)
        example(name)
        typed = said_of(name).replace("/dev/ttyUSB0", near)
        environment = {**os.environ, "PATH": BUILT.name + ":" + os.environ["PATH"]}
        ours, theirs = (here, there) if sends else (there, here)
        with at_end(peer(), far, theirs):
            ran = subprocess.run(
                ["sh", "-c", typed],
                cwd=ours,
                env=environment,
                stdin=subprocess.DEVNULL,
                capture_output=True,
                text=True,
                timeout=LIMIT,
                check=False,
            )
            assert ran.returncode == 0, "%s: status %d: %s" % (typed, ran.returncode, ran.stderr)
        wants_stored(kept, FILES[:1] if sends else FILES)


TYPED = b'firmware.bin none "control bytes"'


@cases(
    case("picocom sends by send to rb", KEY_TO_SEND, "send", TYPED, lambda: ["rb", "-q"], ("rb",)),
    case("picocom sends by send to receive", KEY_TO_SEND, "send", TYPED, c_receive),
    case(
        "picocom receives by receive from sb",
        KEY_TO_RECEIVE,
        "receive",
        b".",
        lambda: ["sb", "-q", *NAMES],
        ("sb",),
    ),
    case(
        "picocom receives by receive from sb -k",
        KEY_TO_RECEIVE,
        "receive",
        b".",
        lambda: ["sb", "-q", "-k", *NAMES],
        ("sb",),
    ),
    case("picocom receives by receive from send", KEY_TO_RECEIVE, "receive", b".", c_send),
)
def test_started_by_picocom(key, name, typed, peer, needed=()):
    """The example as the command that picocom runs for this key, and its peer at the other end of
    the line."""
    needs("picocom", "socat", *needed)
    option = "--send-cmd" if key == KEY_TO_SEND else "--receive-cmd"
    with folders() as (here, there), line() as (near, far):
        write_files(here, FILES)
        ours, theirs = (here, there) if key == KEY_TO_SEND else (there, here)
        with picocom(
            "picocom -b 115200 %s %s %s" % (option, example(name), near),
            ours,
            {**os.environ, "TERM": "vt100"},
        ) as shown:
            with at_end(peer(), far, theirs):
                transfer(shown, key, typed)
        wants_stored(there, FILES)
