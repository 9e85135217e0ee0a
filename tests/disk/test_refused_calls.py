"""Each call on files that an end makes is refused in turn. Whatever the system refuses, no name
holds anything but its whole bytes, and the status and the lines of both ends tell what is so."""

import functools
import os
import re
import subprocess
import sys
from concurrent.futures import ThreadPoolExecutor

import pytest
from support.cases import case, cases, sentence
from support.claims import Claim, claim_of_send, wants_true
from support.file_calls import FEW_FILES, file_calls, paths_of
from support.peers import PlainReceiver, receive_plainly, send_to
from support.program import folders, stored, wants_stored, write_files
from support.skipping import Skipped
from support.storing import received, refused, steadily, told, wants_whole_front
from support.tracing import at_paths, calls_of, numbered, strace


pytestmark = pytest.mark.steadily

ERRORS = ("ENOSPC", "EIO", "EDQUOT", "EPERM", "EINTR")
FAULT = "fault: device\n"

# What the system answers where a folder has become one that is only read.
READ_ONLY = "EROFS"

SHORT_WRITES = os.path.join(os.path.dirname(os.path.abspath(__file__)), "short_writes.py")

WRITES = ("write", "pwrite64", "writev", "pwritev")
READS = ("read", "pread64", "readv", "preadv")
SYNCS = ("fsync", "fdatasync")

NO_LINKS = ("EPERM", "EOPNOTSUPP", "EMLINK", "ENOSYS")

LINKS = "link,linkat"


def inject(call, number, what):
    return ("-e", "inject=%s:%s:when=%d" % (call.name, what, number))


def wants_told(ended, sender, found):
    """What `receive` tells is so: all of it, or a fault of its folder. It may have the name of one
    file more, where that is whole and only its folder could not be forced out."""
    count, _ = wants_whole_front(found, FEW_FILES)
    if ended.status == 0:
        ended.wants(0, told(FEW_FILES))
        return count
    committed = len(re.findall("^file ", ended.out, re.M))
    ended.wants(3, refused(committed, FEW_FILES), FAULT)
    assert (
        committed <= count <= committed + 1 and sender.done <= committed
    ), "%d files are stored, %d told, and %d acknowledged" % (count, committed, sender.done)
    return count


def one_refused(call, number, what, flags):
    """How `receive` ends where this one call fails."""
    with folders() as (log, there):
        log = os.path.join(log, "log")
        ended, sender = received(
            FEW_FILES,
            there,
            flags,
            strace(log, *at_paths(paths_of(there, FEW_FILES)), *inject(call, number, what)),
        )
        try:
            hit = [it for it in calls_of(log) if it.is_injected]
            assert len(hit) == 1, "%d calls were refused" % len(hit)
            wants_told(ended, sender, stored(there))
        except AssertionError as wrong:
            raise AssertionError("%s by %s: %s" % (call, what, wrong)) from None
        return ended


@cases(
    *(
        case("refused: each call of receive on files, by %s" % error, "error=" + error)
        for error in (*ERRORS, READ_ONLY)
    ),
    case("refused: each call of receive on files, by EIO, --no-sync", "error=EIO", ["--no-sync"]),
    case("refused: each write of receive takes nothing", "retval=0", wanted=WRITES)
)
def test_of_receive(what, flags=(), wanted=None):
    """Each call fails so, one in each batch. Writes and syncs that fail make the batch fail, unless
    they may be made again."""
    calls = [it for it in file_calls(FEW_FILES, flags) if wanted is None or it[0].name in wanted]
    assert calls, "it makes no such call"
    one = [steadily(functools.partial(one_refused, *it, what, flags)) for it in calls]
    with ThreadPoolExecutor(4) as pool:
        for (call, _), ended in zip(calls, pool.map(lambda it: it(), one)):
            assert (
                call.name not in (*WRITES, *SYNCS) or "EINTR" in what or ended.status != 0
            ), "%s by %s, and it ended with status 0" % (call, what)


@sentence("refused: half of each write of receive")
def test_short_writes():
    """Each write takes half of what it is given, and says so."""
    before = (sys.executable, SHORT_WRITES)
    with folders() as (_, there):
        if (
            os.uname().machine != "x86_64"
            or subprocess.run([*before, "true"], check=False).returncode
        ):
            raise Skipped("no program can be traced here")
        received(FEW_FILES, there, before=before)[0].wants(0, told(FEW_FILES))
        wants_stored(there, FEW_FILES)


@cases(*(case("refused: every hard link, by %s" % error, error) for error in NO_LINKS))
def test_without_links(error):
    """A file system that has no hard links: the batch is stored all the same, and a name that comes
    meanwhile is not overwritten."""
    with folders() as (log, there):
        none = strace(
            os.path.join(log, "log"),
            "-e",
            "trace=" + LINKS,
            "-e",
            "inject=%s:error=%s" % (LINKS, error),
        )
        ended, _ = received(FEW_FILES, there, before=none)
        ended.wants(0, told(FEW_FILES))
        wants_stored(there, FEW_FILES)


@cases(
    case("refused: to force the folder out, by EINVAL", 0),
    case("refused: to force the folder out, by EINVAL, --no-sync", 3, ["--no-sync"]),
)
def test_folder_is_not_forced(count, flags=()):
    """A file system that cannot force a folder out: that is found out before the first file is
    taken, and nothing is left."""
    with folders() as (log, there):
        words = strace(
            os.path.join(log, "log"), "-P", there, "-e", "inject=fsync,fdatasync:error=EINVAL"
        )
        ended, sender = received(FEW_FILES, there, flags, words)
        if count:
            ended.wants(0, told(FEW_FILES))
        else:
            ended.wants(3, refused(0, FEW_FILES), FAULT)
        assert sender.done == count, "it acknowledged %d files" % sender.done
        wants_stored(there, FEW_FILES[:count])


@cases(
    *(
        case("refused: each call of send on files, by %s" % error, "error=" + error)
        for error in ("EIO", "EPERM", "EINTR", "EMFILE")
    ),
    case("refused: each read of send finds nothing", "retval=0", READS)
)
def test_of_send(what, wanted=None):
    """Each call on the files that are sent fails so."""

    def one(it):
        call, number = it
        with folders() as (log, here):
            log = os.path.join(log, "log")
            names = [os.path.join(here, name) for name, _ in FEW_FILES]
            write_files(here, FEW_FILES)
            receiver = PlainReceiver()
            ended = send_to(
                lambda end: receive_plainly(end, receiver),
                None,
                before=strace(log, *at_paths(names), *inject(call, number, what)),
                paths=names,
            )
            try:
                assert (
                    len([it for it in calls_of(log) if it.is_injected]) == 1
                ), "nothing was refused"
                if ended.status == 3 and not ended.out:
                    return ended.wants(3, "", FAULT)
                wants_true(
                    FEW_FILES,
                    receiver.kept,
                    [claim_of_send(ended), Claim("the receiver", receiver.is_finished)],
                )
                return ended.wants((0, 3), ended.out, ("", FAULT))
            except AssertionError as wrong:
                raise AssertionError("%s by %s: %s" % (call, what, wrong)) from None

    with folders() as (log, here):
        log = os.path.join(log, "log")
        names = write_files(here, FEW_FILES)
        receiver = PlainReceiver()
        send_to(
            lambda end: receive_plainly(end, receiver),
            None,
            before=strace(log, *at_paths(names)),
            paths=names,
        ).wants(0, "sender done 3 finished\n")
        calls = [it for it in numbered(calls_of(log)) if wanted is None or it[0].name in wanted]
    assert calls, "it makes no such call"
    with ThreadPoolExecutor(16) as pool:
        list(pool.map(one, calls))
