"""What `send` tells of its files: which one could not be read, and why, and that two have one name."""

import os

from support.cases import case, cases, sentence
from support.frames import ACK_START, CAN, START
from support.peers import PlainReceiver, frames_at, send_to
from support.program import folders, write_files
from support.telling import FAULT
from support.tracing import at_paths, strace


LOUD = ("--verbose",)
RESIZED = "its length has changed since it was looked at"
MOVED = "another file has taken its place since it was looked at"
ABSENT = "no such file or directory"


def replaced(path):
    """Another file takes its place, as long as it is."""
    with open(path + ".new", "wb") as it:
        it.write(bytes(os.path.getsize(path)))
    os.replace(path + ".new", path)


@cases(
    case("names a file that was cut", lambda path: os.truncate(path, 10), RESIZED),
    case("names a file that has grown", lambda path: os.truncate(path, 200_001), RESIZED),
    case("names a file that was replaced", replaced, MOVED),
    case("names a file that was removed", os.unlink, ABSENT),
)
def test_names_what_is_unread(change, why):
    """A file that changes behind its block 0: what goes to a pipe is the same, and who looks is told
    which one it is, and why."""
    for flags in ((), LOUD):
        with folders() as (here, _):
            path = write_files(here, [("first.bin", bytes(200_000))])[0]

            def peer(end, path=path):
                end.sendall(bytes((START,)))
                next(frames_at(end))
                change(path)
                end.sendall(ACK_START)
                while end.recv(4096):
                    pass

            ended = send_to(peer, [], flags, paths=[path])
        told = "cannot read '%s': %s\n" % (path, why)
        assert ended.status == 3, "the status"
        assert ended.out == "sender done 0 source-failed\n", "what it printed"
        assert ended.err.endswith(told + FAULT if flags else FAULT), "it told %r" % ended.err
        assert ("first.bin" in ended.err) == bool(flags), "whether it named the file"


def takes_all(end):
    """A receiver of any files."""
    receiver = PlainReceiver()
    end.sendall(bytes((START,)))
    for frame in frames_at(end):
        if frame[0] == CAN:
            return
        end.sendall(receiver.answer(frame))


@sentence("names a file whose disk fails while it is sent")
def test_disk_fails():
    """The second file of a batch, from its second read on. The first fault is told, and the first
    file is sent."""
    files = [("first.bin", bytes(5000)), ("second.bin", bytes(200_000))]
    with folders() as (here, log):
        paths = write_files(here, files)
        failing = ("-e", "inject=pread64:error=EIO:when=2+")
        before = strace(os.path.join(log, "log"), *at_paths(paths[1:]), *failing)
        ended = send_to(takes_all, [], LOUD, before, paths)
    told = "cannot read '%s': the device failed, or was unplugged\n" % paths[1]
    ended.wants(3, "sender done 1 source-failed\n", ended.err)
    assert ended.err.endswith(told + FAULT), "it told %r" % ended.err


@sentence("sends what an empty file had when it was looked at")
def test_empty_grows():
    """A file that was empty, and grows before its turn: none of its bytes is sent."""
    with folders() as (here, _):
        path = write_files(here, [("log", b"")])[0]
        receiver = PlainReceiver()

        def peer(end):
            with open(path, "ab") as it:
                it.write(bytes(5000))
            end.sendall(bytes((START,)))
            for frame in frames_at(end):
                end.sendall(receiver.answer(frame))

        ended = send_to(peer, [], LOUD, paths=[path])
    ended.wants(0, "sender done 1 finished\n", ended.err)
    assert receiver.kept == {"log": b""}, "what was sent"


SAME_NAME = "'%s' and '%s' are both sent as 'a': a receiver keeps one, or refuses the second\n"


@sentence("tells beforehand that two files have one name")
def test_same_names():
    """Before anything is sent. It is sent all the same, and a pipe gets what it always got."""
    for flags in ((), LOUD):
        with folders() as (here, there):
            paths = write_files(here, [("a", b"1" * 300), ("b", b"2")])
            paths += write_files(there, [("a", b"3" * 300)])
            ended = send_to(takes_all, [], flags, paths=paths)
        ended.wants(0, "sender done 3 finished\n", ended.err)
        told = SAME_NAME % (paths[0], paths[2])
        assert ended.err.startswith(told) if flags else not ended.err, "it told %r" % ended.err
        assert ended.err.count(told) == len(flags), "how often it told that"
