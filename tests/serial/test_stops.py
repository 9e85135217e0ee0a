"""`ymodem-tty` that is stopped: by Ctrl-C at its terminal, by a signal, by a terminal that is gone.

Each time the line gets its settings back, the other end sees CAN CAN and ends soon, the status is
that of the signal, and the folder has whole files and at most one part.
"""

import contextlib
import os
import random
import signal
import termios
import time

from support.cable import cable, plug, set_for_ticks, settings
from support.cases import case, cases, sentence
from support.claims import claim_of_receive, claim_of_send, wants_true
from support.frames import END, EOT, START, frames_of
from support.on_line import ends_with, peer, started
from support.plug_end import End
from support.program import (
    LIMIT,
    PROGRAM,
    Ending,
    folders,
    stored,
    wants_same,
    write_files,
    write_program,
)
from support.pulse import beating
from support.skipping import needs
from support.system_calls import WRITE, waits_in
from support.terminal import UnderTerminal
from support.tty_script import (
    CANCEL,
    ENVIRONMENT,
    FILES as FEW,
    SCRIPT,
    is_running,
    left_of,
    piped,
    runs,
    wants_status,
)
from support.waits import wait_until


CHANCE = random.Random(23)
FILES = [("one", CHANCE.randbytes(3000)), ("none", b""), ("two", CHANCE.randbytes(6000))]
# Seconds within which the cable goes on behind the stop. Two seconds behind the stop the script
# tells the other end, and what was held back has to be apart from that by one second.
PROMPT = 0.7
# Seconds in which an end that was cancelled has ended, also on a busy machine. Where CAN CAN is
# lost, lrzsz's `rb` takes 50 or more.
SOON = 40
KILLED = "ymodem-tty: ymodem was killed, and the other end was told\n"
NOT_TOLD = "ymodem-tty: interrupted, and the other end could not be told\n"


def places(eots):
    """Moments, as the bytes that the sender's end has sent by then: before the first one, within
    each frame and behind it. Each EOT goes out so many times. The last one is behind all."""
    found, at = [0], 0
    for frame in frames_of(FILES):
        for _ in range(eots if frame[0] == EOT else 1):
            at += len(frame)
            found += [at - len(frame) // 2, at]
    return sorted(set(found))


def moments(job, is_lrzsz):
    """Those of a job with this other end. lrzsz's rb takes the first EOT, and drops what comes
    within the second behind it: so there none is tried."""
    if job == "receive" or not is_lrzsz:
        return places(2)
    found, at = places(1), 0
    for frame in frames_of(FILES):
        at += len(frame)
        if frame[0] == EOT:
            found.remove(at)
    return found


class Stop:
    """How somebody stops `ymodem-tty`, which runs at a terminal of its own."""

    def __init__(self, name, number, do):
        self.name, self.number, self.do = name, number, do


STOPS = {
    "Ctrl-C": Stop("Ctrl-C", signal.SIGINT, lambda shown: shown.type(b"\x03")),
    "SIGTERM": Stop(
        "SIGTERM", signal.SIGTERM, lambda shown: shown.child.send_signal(signal.SIGTERM)
    ),
    "hang-up": Stop("a terminal that is gone", signal.SIGHUP, lambda shown: shown.hang_up()),
}


class Ends:
    """Both ends of the cable: the plug of `ymodem-tty`, that of the other end, and what each way
    carried, as the job has it."""

    def __init__(self, job, it):
        both = (it.near, it.far) if job == "send" else (it.far, it.near)
        self.ours, self.other = both
        self.written = it.there if job == "send" else it.back


@contextlib.contextmanager
def other_end(job, is_lrzsz, plug, folder, paths):
    """Who sends or receives at the other end, on its terminal."""
    if is_lrzsz:
        with peer(["rb"] if job == "send" else ["sb", *paths], folder, plug.outer) as child:
            yield child
    else:
        set_for_ticks(plug.path)
        words = (
            ["rb", "--line", plug.path] if job == "send" else ["sb", "--line", plug.path, *paths]
        )
        with started([PROGRAM, *words], folder) as child:
            yield child


def wants_ended(job, child, is_lrzsz, has_all, folder):
    """The other end has ended, soon, and what it reports is so. It was cancelled, but where it had
    got all that there is."""
    began = time.monotonic()
    if is_lrzsz:
        assert (child.wait(LIMIT) == 0) == has_all, (
            "the other end ended with status %d" % child.returncode
        )
    else:
        status, word = (0, "finished") if has_all else (1, "cancelled")
        out, err = ends_with(child, status)
        assert out.endswith(" %s\n" % word), "the other end told %r" % out
        told = Ending(("other",), status, out, err, 0)
        claim = claim_of_receive(told, FILES) if job == "send" else claim_of_send(told)
        wants_true(FILES, whole(folder), [claim])
    assert time.monotonic() - began <= SOON, "the other end took %.0f s" % (
        time.monotonic() - began
    )


def whole(folder):
    """The files that are there, but for one part at most."""
    kept = stored(folder)
    parts = [name for name in kept if name.endswith(".part")]
    assert len(parts) <= 1, "it left %r" % parts
    return {name: data for name, data in kept.items() if name not in parts}


def wants_front(files, kept):
    """What is kept are the first files of the batch, each whole."""
    wants_same(kept, dict(files[: len(kept)]))


@cases(
    case("ymodem-tty send, interrupted", ["send", "one.bin"], signal.SIGINT),
    case("ymodem-tty receive, ended", ["receive"], signal.SIGTERM),
    case("ymodem-tty receive, whose terminal is gone", ["receive"], signal.SIGHUP),
    case("ymodem-tty send, ended by USR1", ["send", "one.bin"], signal.SIGUSR1),
    case("ymodem-tty receive, ended by PIPE", ["receive"], signal.SIGPIPE),
)
def test_interrupted(words, by):
    """Over pipes: the other end is told, and nothing is left behind."""
    with folders() as (here, _):
        write_files(here, FEW)
        with piped([SCRIPT, *words], here) as script:
            wait_until(lambda: is_running(script.pid), "a transfer began")
            script.send_signal(by)
            wants_status("ymodem-tty", script, -by)
            assert script.stdout.read().endswith(CANCEL), "the other end was not told"
            assert not left_of(script.pid), "left behind: %r" % left_of(script.pid)


@sentence("ymodem-tty receive, ended, whose line nobody reads any more")
def test_nobody_reads():
    """The signal is the status, and that nobody was told is said."""
    with folders() as (here, _), piped([SCRIPT, "receive"], here) as script:
        wait_until(lambda: is_running(script.pid), "a transfer began")
        assert script.stdout.read(1) == b"C", "it does not ask"
        script.stdout.close()
        script.send_signal(signal.SIGTERM)
        said = wants_status("ymodem-tty", script, -signal.SIGTERM)
        wants_same({"said": said}, {"said": NOT_TOLD})


# Tells that it runs, and heeds no signal that may be unheeded: so it is with one that comes while
# the shell still makes its child a program.
DEAF = """#!/bin/sh
trap '' TERM HUP INT QUIT
echo > told
exec sleep 600
"""


@sentence("ymodem-tty, of a program on which the signal is lost")
def test_signal_is_lost():
    """The program is ended all the same, at once, and the line gets its settings back."""
    with folders() as (here, there), plug() as it:
        program, before = write_program(os.path.join(there, "deaf"), DEAF), settings(it.path)
        words = [SCRIPT, "--device", it.path, "receive"]
        with piped(words, here, {**ENVIRONMENT, "YMODEM": program}) as script:
            wait_until(lambda: os.path.exists(os.path.join(here, "told")), "the program runs")
            script.send_signal(signal.SIGTERM)
            wants_status("ymodem-tty", script, -signal.SIGTERM)
            wants_same({"left": left_of(script.pid)}, {"left": []})
        wants_same({"settings": settings(it.path)}, {"settings": before})


@cases(
    case("ymodem-tty send, whose program is killed", ["send", "one.bin"], signal.SIGKILL),
    case("ymodem-tty receive, whose program is ended", ["receive"], signal.SIGTERM),
)
def test_program_is_killed(words, by):
    """The other end is told, and the line gets its settings back. The status is that of a shell."""
    with folders() as (here, _), plug() as it:
        write_files(here, FEW)
        before = settings(it.path)
        with piped([SCRIPT, "--device", it.path, *words], here) as script:
            wait_until(lambda: has_open(runs(script.pid), it.path), "the program has the line open")
            os.kill(runs(script.pid)[0], by)
            said = wants_status("ymodem-tty", script, 128 + by)
        wants_same({"said": said.splitlines(True)[-1]}, {"said": KILLED})
        End(it).wants(CANCEL)
        wants_same({"settings": settings(it.path)}, {"settings": before})


@sentence("ymodem-tty, which bash runs, ended by QUIT")
def test_quit_of_bash():
    """Bash never ends by that signal. It is told once, and the status is that of a shell."""
    with folders() as (here, _), piped(["bash", "--posix", SCRIPT, "receive"], here) as script:
        wait_until(lambda: is_running(script.pid), "a transfer began")
        script.send_signal(signal.SIGQUIT)
        said = wants_status("ymodem-tty", script, 128 + signal.SIGQUIT)
        wants_same({"said": said}, {"said": KILLED.replace("ymodem was killed", "interrupted")})


XOFF = b"\x13"


@sentence("ymodem-tty send, held up by the other end, and Ctrl-C")
def test_held_up():
    """The other end holds the line up for ever: a write waits, and Ctrl-C ends it all the same."""
    with folders() as (here, _), plug() as it, contextlib.ExitStack() as later:
        paths, before = write_files(here, FILES), settings(it.path)
        words = [SCRIPT, "--device", it.path, "--flow", "soft", "send", *paths]
        shown = UnderTerminal(words, env=ENVIRONMENT)
        later.callback(shown.stop)
        wait_until(lambda: is_running(shown.child.pid), "a transfer began")
        os.write(it.inner, XOFF + bytes((START,)))
        waits_in(runs(shown.child.pid)[0], WRITE, it.path)
        shown.type(b"\x03")
        wants_same({"status": shown.ended()}, {"status": -signal.SIGINT})
        End(it).wants(CANCEL)
        wants_same({"settings": settings(it.path)}, {"settings": before})


@cases(
    case("ymodem-tty send, ended, whose line takes no more", ["--device"]),
    case("ymodem-tty send, ended, whose line on standard output takes no more", []),
)
def test_line_is_full(words):
    """What cancels can never be written. It ends all the same, and tells so.

    A line whose buffers are full may take some bytes all the same, as they are moved on. So it is
    stopped, as a host stops it, which no setting undoes."""
    with folders() as (here, _), plug() as it:
        paths, before = write_files(here, FILES), settings(it.path)
        end = os.open(it.path, os.O_RDWR | os.O_NOCTTY)
        at, how = (words + [it.path], {}) if words else ([], {"stdin": end, "stdout": end})
        how |= {"env": ENVIRONMENT, "start_new_session": True}
        with started([SCRIPT, *at, "send", *paths], here, **how) as script:
            wait_until(lambda: has_open(runs(script.pid), it.path), "the program has the line open")
            termios.tcflow(end, termios.TCOOFF)
            script.send_signal(signal.SIGTERM)
            _, said = ends_with(script, -signal.SIGTERM)
        termios.tcflow(end, termios.TCOON)
        os.close(end)
        wants_same({"said": said.splitlines(True)[-1]}, {"said": NOT_TOLD})
        wants_same({"settings": settings(it.path)}, {"settings": before})


def has_open(pids, path):
    """Whether one of these processes has this file open."""
    for pid in pids:
        with contextlib.suppress(OSError):
            folder = "/proc/%d/fd" % pid
            if any(os.readlink(os.path.join(folder, it)) == path for it in os.listdir(folder)):
                return True
    return False


@sentence("ymodem-tty send, whose line is gone")
def test_line_is_gone():
    """The line of `ymodem-tty` hangs up: the status is that of the program, which says why."""
    with folders() as (here, _), plug() as it, os.fdopen(os.dup(it.outer)):
        # as long as that copy is there, no other terminal gets this path
        paths = write_files(here, FILES)
        with piped([SCRIPT, "--device", it.path, "send", "--verbose", *paths], here) as script:
            wait_until(lambda: has_open(runs(script.pid), it.path), "the program has the line open")
            it.pull()
            said = wants_status("ymodem-tty", script, 3)
            assert "the line hung up\nfault: closed\n" in said, "it said %r" % said


@cases(
    case("ymodem-tty send, ended, whose line is taken away meanwhile", False),
    case("ymodem-tty send, ended, whose line hangs up meanwhile", True),
)
def test_line_goes_meanwhile(hangs_up):
    """The line goes before the other end is told: the signal is the status all the same, and no
    file is made in the line's place."""
    with folders() as (here, there), plug() as it, os.fdopen(os.dup(it.outer)):
        # as long as that copy is there, no other terminal gets this path
        paths, link = write_files(here, FILES), os.path.join(there, "line")
        os.symlink(it.path, link)
        with piped([SCRIPT, "--device", link, "send", *paths], here) as script:
            wait_until(lambda: has_open(runs(script.pid), it.path), "the program has the line open")
            script.send_signal(signal.SIGTERM)
            wait_until(lambda: not runs(script.pid), "the program was stopped")
            if hangs_up:
                it.pull()
            else:
                os.remove(link)
            said = wants_status("ymodem-tty", script, -signal.SIGTERM)
        wants_same({"said": said.splitlines(True)[-1]}, {"said": NOT_TOLD})
        assert not os.path.exists(link), "a file stands where the line was"


def moment_of(job, is_lrzsz, number, count):
    """One of so many moments of a job, that are spread over it."""
    *before, _ = moments(job, is_lrzsz)
    return before[number * len(before) // count]


EACH = [
    (job, name, moment_of(job, number % 2 == 1, number, count), other, number % 2 == 1)
    for name, count in (("Ctrl-C", 20), ("SIGTERM", 6), ("hang-up", 6))
    for number in range(count)
    for job, other in (("send", "rb"), ("receive", "sb"))
]


@cases(
    *(
        case(
            "ymodem-tty %s, %s at byte %d, with %s"
            % (job, name, moment, other if is_lrzsz else "ymodem " + other),
            job,
            STOPS[name],
            moment,
            is_lrzsz,
        )
        for job, name, moment, other, is_lrzsz in EACH
    )
)
def test_stopped(job, stop, moment, is_lrzsz):
    """Stopped when the sender's end has sent so much, at that very moment."""
    needs(*(["rb", "sb"] if is_lrzsz else []))
    with folders() as (here, there), cable(hold_at=moment) as it, contextlib.ExitStack() as later:
        paths, ends = write_files(here, FILES), Ends(job, it)
        before = settings(ends.ours.path)
        words = ["send", *paths] if job == "send" else ["receive", "--no-sync", there]
        shown = UnderTerminal([SCRIPT, "--device", ends.ours.path, *words], env=ENVIRONMENT)
        later.callback(shown.stop)
        wait_until(lambda: is_running(shown.child.pid), "a transfer began")
        other = other_end(job, is_lrzsz, ends.other, there if job == "send" else here, paths)
        other = later.enter_context(other)
        wait_until(it.is_held.is_set, "the sender has sent %d bytes" % moment)
        began = time.monotonic()
        stop.do(shown)
        wait_until(lambda: not runs(shown.child.pid), "the program was stopped")
        it.go_on.set()
        beating().note(began, PROMPT)
        wants_same({"status": shown.ended()}, {"status": -stop.number})
        wait_until(lambda: bytes(ends.written).endswith(CANCEL), "the other end was told")
        wants_same({"settings": settings(ends.ours.path)}, {"settings": before})
        wants_same({"left": left_of(shown.child.pid)}, {"left": []})
        # a sender that has written a part of the end block has written all of it
        begins = moments(job, is_lrzsz)[-1] - len(END)
        has_all = job == "send" and moment > begins
        wants_ended(job, other, is_lrzsz, has_all, there)
        if job == "receive" or not is_lrzsz:
            wants_front(FILES, whole(there))
