"""Two `ymodem-tty` at one line at the same moment: one of them has it, and the line gets back the
settings that it had before both."""

import contextlib
import os
import shutil

from support.cable import plug, settings
from support.cases import case, cases, sentence
from support.frames import END
from support.on_line import ends_with, lock, started
from support.plug_end import End
from support.program import PROGRAM, ROOT, folders, wants_same, write_files
from support.skipping import needs
from support.tty_script import ENVIRONMENT, LOGIN, SCRIPT
from support.waits import wait_until

REFUSED = "ymodem-tty: another ymodem-tty has the line\n"
CANCEL = b"\x18\x18"
STANDS_IN = os.path.join(ROOT, "tests", "support", "stands_in.sh")


class Held:
    """What stands in for a program that `ymodem-tty` runs, by this name in this folder, and is held
    up where it is asked for words of this pattern."""

    def __init__(self, folder, name, program, asked="*"):
        self.folder, self.path = folder, os.path.join(folder, name)
        os.symlink(STANDS_IN, self.path)
        about = {"STANDS_FOR": program, "HELD_IN": folder, "HELD_AT": asked}
        self.environment = {**ENVIRONMENT, **about}

    def is_held(self, script):
        """Waits until it is, which this child has to bring about."""
        told = os.path.join(self.folder, "told")
        wait_until(lambda: os.path.exists(told) or script.poll() is not None, "it is held up")
        assert os.path.exists(told), "it has ended before: %r" % script.stderr.read()

    def goes_on(self):
        write_files(self.folder, [("go", b"")])


def before_its_lock(folder):
    """`ymodem-tty` has set the line, and what it runs has not locked it yet."""
    held = Held(folder, "late", PROGRAM)
    return held, {**held.environment, "YMODEM": held.path}, 1


def behind_its_end(folder):
    """What it runs has ended, and the line does not have its settings yet."""
    # settings that come back have colons
    held = Held(folder, "stty", shutil.which("stty"), "*:*")
    path = folder + ":" + ENVIRONMENT["PATH"]
    return held, {**held.environment, "YMODEM": "true", "PATH": path}, 0


@contextlib.contextmanager
def receiving(it, folder, by_path, environment=ENVIRONMENT):
    """`ymodem-tty receive` at this plug, which it opens by its path or has as standard input."""
    with contextlib.ExitStack() as later:
        words, how = ["--device", it.path], {}
        if not by_path:
            end = os.open(it.path, os.O_RDWR | os.O_NOCTTY)
            later.callback(os.close, end)
            words, how = [], {"stdin": end, "stdout": end}
        words = [SCRIPT, *words, "receive"]
        yield later.enter_context(started(words, folder, env=environment, **how))


@cases(
    *(
        case("a second ymodem-tty comes %s, %s" % (when, named), held, by_path)
        for when, held in (
            ("before the first one's lock", before_its_lock),
            ("behind the first one's end", behind_its_end),
        )
        for named, by_path in (("by the same path", True), ("on standard input", False))
    )
)
def test_second_is_refused(held, by_path):
    """It is refused, and does not touch the line. What cancels a transfer waits there for the one
    that has it."""
    needs("flock")
    with folders() as (here, there), plug() as it:
        before = settings(it.path)
        held, environment, status = held(here)
        with receiving(it, here, True, environment) as first:
            held.is_held(first)
            needed = settings(it.path)
            os.write(it.inner, CANCEL)
            with receiving(it, there, by_path) as second:
                _, err = ends_with(second, 3)
            wants_same({"said": err}, {"said": REFUSED})
            wants_same({"settings": settings(it.path)}, {"settings": needed})
            held.goes_on()
            ends_with(first, status)
        wants_same({"settings": settings(it.path)}, {"settings": before})


@sentence("ymodem-tty behind one that was killed")
def test_behind_a_killed_one():
    """One that was killed has the line no more, also where what it ran is still there."""
    with folders() as (here, there), plug() as it:
        held = Held(here, "late", "true")
        with receiving(it, here, True, {**held.environment, "YMODEM": held.path}) as first:
            held.is_held(first)
            first.kill()
            first.wait()
            os.write(it.inner, CANCEL)
            with receiving(it, there, True) as second:
                ends_with(second, 1)
            held.goes_on()


@contextlib.contextmanager
def at_its_own(it, folder):
    """`ymodem-tty receive` of a login at this plug, which names it as its own terminal."""
    end = os.open(it.path, os.O_RDWR | os.O_NOCTTY)
    how = {"stdin": end, "stdout": end, "env": ENVIRONMENT}
    words = [*LOGIN, SCRIPT, "--device", "/dev/tty", "receive", "--verbose"]
    with started(words, folder, **how) as script:
        os.close(end)
        yield script


@sentence("ymodem-tty at /dev/tty, at two terminals")
def test_two_of_their_own():
    """Each has the terminal that it was started at: neither holds up the other one."""
    with folders() as (here, there), plug() as one, plug() as other:
        with at_its_own(one, here) as first, at_its_own(other, there) as second:
            for it in (one, other):
                End(it).wants(b"C")
            for it, script in ((one, first), (other, second)):
                os.write(it.inner, END)
                ends_with(script, 0)


@sentence("ymodem-tty at a /dev/tty that is busy")
def test_own_is_busy():
    """It is that terminal which is locked."""
    with folders() as (here, _), plug() as it:
        held = lock(it.path)
        with at_its_own(it, here) as script:
            _, err = ends_with(script, 3)
        os.close(held)
    told = "cannot open '%s': another program has it open\n" % it.path
    assert told in err, "it said %r" % err
