"""Files over a serial line: `ymodem sb` and `ymodem rb` on pseudo terminals, by path and as
standard input and output, beside lrzsz's and beside each other."""

import contextlib
import os
import random
import time
import tty

from support.cable import cable, plug, set_for_ticks
from support.cases import case, cases, sentence
from support.frames import END
from support.on_line import ends_with, lock, peer, says, started
from support.program import (
    LIMIT,
    PROGRAM,
    file_lines,
    folders,
    wants_same,
    wants_stored,
    write_files,
)
from support.skipping import Skipped, needs
from support.system_calls import READ, waits_in
from support.waits import wait_for


CHANCE = random.Random(33)
FILES = [
    ("one.bin", CHANCE.randbytes(5000)),
    ("none", b""),
    ("control bytes", bytes(range(256)) * 5),
]
NAMES = [name for name, _ in FILES]
CAN_CAN = b"\x18\x18"
NOBODY = 65534


def on(path):
    """This terminal as standard input and output."""
    end = os.open(path, os.O_RDWR | os.O_NOCTTY)
    return {"stdin": end, "stdout": end}


@contextlib.contextmanager
def line_to_peer(baud):
    """A terminal for the program, and the end at which a peer finds it: its other end or, at a
    pace, the far end of a cable."""
    if baud is None:
        with plug() as it:
            yield it.path, it.inner
    else:
        with cable(baud=baud) as it:
            yield it.near.path, it.far.outer


def between(files, send=(), receive=(), baud=None):
    """From `ymodem sb` to `ymodem rb`, over a cable."""
    with folders() as (here, there), cable(baud=baud) as it:
        paths = write_files(here, files)
        for end in (it.near, it.far):
            set_for_ticks(end.path)
        with (
            started([PROGRAM, "rb", "--line", it.far.path, *receive, there], there) as receiver,
            started([PROGRAM, "sb", "--line", it.near.path, *send, *paths], here) as sender,
        ):
            says(sender, 0, "sender done %d finished\n" % len(files))
            says(receiver, 0, file_lines(files) + "receiver files %d finished\n" % len(files))
        wants_stored(there, files)


@cases(
    case("a cable that is pulled in block 0", 10),
    case("a cable that is pulled in a data block", 1500),
    case("a cable that is pulled in the second file", 20_000),
)
def test_hangs_up(cut_at):
    """The cable is pulled in the middle: both know what they know, and the receiver has nothing
    that is not whole."""
    files = [("first", CHANCE.randbytes(3000)), ("second", CHANCE.randbytes(60_000))]
    with folders() as (here, there), cable(cut_at=cut_at) as it:
        paths = write_files(here, files)
        for end in (it.near, it.far):
            set_for_ticks(end.path)
        with started(
            [PROGRAM, "sb", "--verbose", "--line", it.near.path, *paths], here
        ) as sender, started([PROGRAM, "rb", "--line", it.far.path], there):
            out, err = ends_with(sender, 3)
        assert "the line hung up\n" in err and err.endswith(
            ("fault: closed\n", "fault: device\n")
        ), "it said %r" % err
        done = int(out.split()[2])
        for name, data in files[:done]:
            with open(os.path.join(there, name), "rb") as kept:
                wants_same({name: kept.read()}, {name: data})


def refuses(path_in, why, before=None, how=None):
    """A line that is refused, and what is told of it, to somebody who looks."""
    with folders() as (here, _), plug() as it:
        for folder in (os.path.dirname(here), here):
            os.chmod(folder, 0o755)
        path = path_in(here, it)
        held = before(path) if before else None
        for words in (
            ["sb", "--line", path, *write_files(here, [("a", b"a")])],
            ["rb", "--line", path, "/tmp"],
        ):
            with started([PROGRAM, *words, "--verbose"], here, **(how or {})) as child:
                said = "cannot open '%s': %s\nfault: device\n" % (path, why)
                says(child, 3, "", said)
        if held is not None:
            os.close(held)


@cases(
    case("a line that is not there", lambda here, _: here + "/nothing", "no such device"),
    case(
        "a line that is a file",
        lambda here, _: write_files(here, [("file", b"")])[0],
        "it is no terminal",
    ),
    case("a line that is a folder", lambda here, _: here, "it is no terminal"),
    case(
        "a line that another program has locked",
        lambda _, it: it.path,
        "another program has it open",
        lock,
    ),
)
def test_refuses(path_in, why, before=None, how=None):
    refuses(path_in, why, before, how)


# Where programs that know no other lock leave a file for each line that they use.
LOCK_FILES = "/var/lock"


@sentence("a line with a lock file alone")
def test_only_a_lock_file():
    """A lock file of UUCP alone keeps nobody from the line."""
    with folders() as (_, there), plug() as it:
        set_for_ticks(it.path)
        name = os.path.join(LOCK_FILES, "LCK.." + os.path.basename(it.path))
        if not os.access(LOCK_FILES, os.W_OK) or os.path.exists(name):
            raise Skipped("no lock file can be made at %s" % name)
        with open(name, "w", encoding="ascii") as lock_file:
            lock_file.write("%10d\n" % os.getpid())
        try:
            with started([PROGRAM, "rb", "--line", it.path], there) as child:
                wait_for(it.inner, 1)
                os.write(it.inner, END)
                says(child, 0, "receiver files 0 finished\n")
        finally:
            os.remove(name)


@sentence("a line that one may not open")
def test_denied():
    if os.geteuid() != 0:
        raise Skipped("only root may become somebody else")
    why = "permission denied; members of the group dialout may open it"
    refuses(
        lambda _, it: os.chmod(it.path, 0o600) or it.path,
        why,
        how={"user": NOBODY, "group": NOBODY, "extra_groups": []},
    )


@sentence("a line that was not set")
def test_endless():
    """A terminal that was not set: a read waits until a byte comes, and then it is told what to
    do."""
    with folders() as (here, _), plug() as it:
        tty.setraw(it.outer)
        path = write_files(here, [("a", b"a")])[0]
        with started([PROGRAM, "sb", "--verbose", "--line", it.path, path], here) as child:
            waits_in(child.pid, READ, it.path)
            # that the first byte comes late is what it is found out by
            time.sleep(1.5)
            os.write(it.inner, b"C")
            out, err = ends_with(child, 3)
        told = (
            "the line is '%s'\n" % it.path,
            (
                "reads of the line do not end by themselves: "
                "set it by `stty raw -echo clocal min 0 time 1`\nfault: device\n"
            ),
        )
        assert (
            err.startswith(told[0]) and err.endswith(told[1]) and out == "sender done 0 running\n"
        ), "it said %r %r" % (out, err)


def asks():
    """After how many seconds `rb` asked for the first file, and after how many more again."""
    with folders() as (_, there), plug() as it:
        set_for_ticks(it.path)
        began = time.monotonic()
        with started([PROGRAM, "rb", "--line", it.path], there) as child:
            wait_for(it.inner, 1)
            first = time.monotonic() - began
            wait_for(it.inner, 2)
            second = time.monotonic() - began - first
            os.write(it.inner, END)
            says(child, 0, "receiver files 0 finished\n")
        return first, second


@sentence("ymodem rb asks at once")
def test_asks_at_once():
    """`rb` asks for the first file with no wait, and again after three seconds; on a machine that
    is slow, at one of the tries."""
    for _ in range(5):
        first, second = asks()
        if first <= 2.5 < second < 20:
            return
    raise AssertionError("it asked after %.1f s, and again after %.1f s" % (first, second))


@cases(
    case("ymodem sb, cancelled by its peer", ["sb"]),
    case("ymodem rb, cancelled by its peer", ["rb"]),
)
def test_cancelled(words):
    with folders() as (here, there), plug() as it:
        set_for_ticks(it.path)
        paths = write_files(here, [("a", b"a")]) if words[0] == "sb" else [there]
        with started([PROGRAM, *words, "--line", it.path, *paths], here) as child:
            os.write(it.inner, CAN_CAN)
            ends_with(child, 1)


@sentence("ymodem sb to ymodem rb over a cable, 20 MB")
def test_at_full_speed():
    """20 MB, as fast as both ends and the terminals are."""
    between([("long", random.Random(34).randbytes(20_000_000))])


SPEEDS = (9600, 19_200, 57_600, 115_200, 921_600)


@cases(
    case("ymodem sb --line to rb"),
    case("ymodem sb --short --line to rb", ["--short"]),
    case("ymodem sb on standard streams to rb", by_path=False),
    *(case("ymodem sb to rb at %d baud" % baud, baud=baud) for baud in SPEEDS),
    case("ymodem sb --short to rb at 9600 baud", ["--short"], baud=9600),
)
def test_sends(words=(), by_path=True, baud=None):
    """`ymodem sb` to lrzsz's rb."""
    needs("rb")
    with folders() as (here, there), line_to_peer(baud) as (path, end):
        write_files(here, FILES)
        set_for_ticks(path)
        line = ["--line", path] if by_path else []
        streams = {} if by_path else on(path)
        words_of_it = [PROGRAM, "sb", *line, *words, *NAMES]
        with peer(["rb"], there, end) as other, started(words_of_it, here, **streams) as child:
            done = "sender done %d finished\n" % len(FILES)
            says(child, 0, *((done, "") if by_path else ("", done)))
            other.wait(LIMIT)
        wants_stored(there, FILES)
        for end in set(streams.values()):
            os.close(end)


@cases(
    case("sb to ymodem rb --line"),
    case("sb to ymodem rb --single --line", ["--single"]),
    case("sb to ymodem rb on standard streams", by_path=False),
    *(case("sb to ymodem rb at %d baud" % baud, baud=baud) for baud in SPEEDS),
)
def test_receives(words=(), by_path=True, baud=None):
    """`ymodem rb` from lrzsz's sb."""
    needs("sb")
    with folders() as (here, there), line_to_peer(baud) as (path, end):
        for it in write_files(here, FILES):
            os.utime(it, (0o15300550564, 0o15300550564))
            os.chmod(it, 0o644)
        set_for_ticks(path)
        line = ["--line", path] if by_path else []
        streams = {} if by_path else on(path)
        words_of_it = [PROGRAM, "rb", *line, *words]
        with started(words_of_it, there, **streams) as child, peer(["sb", *NAMES], here, end):
            told = file_lines(FILES, "15300550564 100644") + "receiver files %d finished\n" % len(
                FILES
            )
            says(child, 0, *((told, "") if by_path else ("", told)))
        wants_stored(there, FILES)
        for end in set(streams.values()):
            os.close(end)


@cases(
    case("ymodem sb to ymodem rb over a cable", FILES),
    *(case("ymodem sb to ymodem rb at %d baud" % baud, FILES, baud=baud) for baud in SPEEDS),
    case("ymodem sb --short to ymodem rb at 9600 baud", FILES, send=["--short"], baud=9600),
)
def test_between(files, send=(), receive=(), baud=None):
    between(files, send, receive, baud)
