"""How `send` and `receive` start: calls that are made again, the look at the folder, --eager,
--keep and --version."""

import os
import signal
import socket
import subprocess
import threading
import time

from support.cases import sentence
from support.frames import END, START
from support.peers import PlainReceiver, receive_plainly
from support.program import (
    LIMIT,
    ROOT,
    connected,
    file_lines,
    folders,
    free_port,
    run,
    running,
    wants_stored,
    write_files,
)
from support.skipping import needs
from support.telling import FAULT, FILE, connecting


@sentence("calls again where nobody listens yet")
def test_calls_again():
    """A sender that is started first finds a receiver that comes a little later; on a machine that
    is slow, at one of the tries."""
    for _ in range(5):
        with folders() as (here, there):
            paths, port = write_files(here, FILE), free_port()
            with running("send", "-p", port, "--verbose", *paths) as send:
                assert send.child.stderr.readline().decode() == connecting(port), "its first line"
                with running("receive", "-p", port, there) as receive:
                    if send.ended().status == 3:
                        continue
                    receive.ended().wants(0, file_lines(FILE) + "receiver files 1 finished\n")
            wants_stored(there, FILE)
            return
    raise AssertionError("it never called again")


@sentence("leaves nothing of its look at the folder")
def test_leaves_no_probe():
    """What looks at the folder leaves nothing there."""
    with folders() as (_, there), running(
        "receive", "-p", (port := free_port()), there
    ) as receive, connected(port, receive):
        assert os.listdir(there) == [], "the folder"


@sentence("leaves a file .ymodem.part that was there")
def test_leaves_what_is_there():
    """A file of the name by which it looks at the folder stays, with its bytes."""
    with folders() as (here, there):
        paths, port, mine = write_files(here, FILE), free_port(), [(".ymodem.part", b"mine")]
        write_files(there, mine)
        with running("receive", "-p", port, "--eager", there) as receive:
            run("send", "-p", port, *paths).wants(0, "sender done 1 finished\n")
            receive.ended().wants(0, file_lines(FILE) + "receiver files 1 finished\n")
        wants_stored(there, [*mine, *FILE])


@sentence("asks at once with --eager")
def test_asks_at_once():
    """With --eager the first C comes at once; on a machine that is slow, at one of the tries."""
    soonest = LIMIT
    for _ in range(5):
        with folders() as (_, there), running(
            "receive", "-p", (port := free_port()), "--eager", there
        ) as receive, connected(port, receive) as end:
            began = time.monotonic()
            assert end.recv(1) == bytes((START,)), "the first byte"
            soonest = min(soonest, time.monotonic() - began)
            end.sendall(END)
            receive.ended().wants(0, "receiver files 0 finished\n")
        if soonest < 1:
            return
    raise AssertionError("it asked after %.1f s" % soonest)


def by_sb(path, port):
    """Sends a file by `sb` to this port, and gives the seconds that it took."""
    began = time.monotonic()
    subprocess.run(
        ["socat", "EXEC:sb '%s'" % path, "TCP:127.0.0.1:%d" % port],
        capture_output=True,
        timeout=LIMIT,
        check=True,
    )
    return time.monotonic() - began


def by_sb_to_plain(path):
    """The same, to a receiver of this process that waits for nothing."""
    with socket.create_server(("127.0.0.1", 0)) as listener:
        listener.settimeout(LIMIT)

        def receive():
            with listener.accept()[0] as end:
                receive_plainly(end, PlainReceiver())

        receiver = threading.Thread(target=receive, daemon=True)
        receiver.start()
        seconds = by_sb(path, listener.getsockname()[1])
        receiver.join(LIMIT)
    return seconds


@sentence("takes a file of sb at once with --eager")
def test_sb_to_eager():
    """A file from `sb` to a receiver that asks at once takes under 0.3 seconds; on a machine that
    is slow, less than thrice what it takes to a receiver that waits for nothing. Without --eager it
    takes three seconds more."""
    needs("socat", "sb")
    soonest = plain = LIMIT
    for _ in range(5):
        with folders() as (here, there):
            paths, port = write_files(here, FILE), free_port()
            with running("receive", "-p", port, "--eager", "--keep", there) as receive:
                connected(port, receive).close()
                soonest = min(soonest, by_sb(paths[0], port))
            wants_stored(there, FILE)
            if soonest < 0.3:
                return
            plain = min(plain, by_sb_to_plain(paths[0]))
        if soonest < 3 * plain:
            return
    raise AssertionError("it took %.1f s, and to a plain receiver %.1f s" % (soonest, plain))


@sentence("takes one connection after another with --keep")
def test_one_connection_after_another():
    """With --keep a session that fails does not end the program, which ends by a signal."""
    with folders() as (here, there):
        paths, port = write_files(here, FILE), free_port()
        with running("receive", "-p", port, "--eager", "--keep", there) as receive:
            connected(port, receive).close()
            told = receive.child.stdout
            assert told.readline() == b"receiver files 0 running\n", "the first session"
            run("send", "-p", port, *paths).wants(0, "sender done 1 finished\n")
            assert (
                told.readline() + told.readline()
                == (file_lines(FILE) + "receiver files 1 finished\n").encode()
            ), "the second session"
            run("send", "-p", port, *paths).wants(1, "sender done 0 cancelled\n")
            assert told.readline() == b"receiver files 0 sink-failed\n", "the third session"
            os.remove(os.path.join(there, FILE[0][0]))
            run("send", "-p", port, *paths).wants(0, "sender done 1 finished\n")
            assert (
                told.readline() + told.readline()
                == (file_lines(FILE) + "receiver files 1 finished\n").encode()
            ), "the fourth session"
            receive.child.send_signal(signal.SIGTERM)
            receive.ended().wants(-signal.SIGTERM, "", "fault: closed\n" + FAULT)
        wants_stored(there, FILE)


@sentence("tells which word is not UTF-8")
def test_odd_word():
    """The first such word is told by its number; one that is too long to be looked at is not."""
    told = "error: word %d is not UTF-8: give the file another name, or a link to it\n"
    odd, long = os.fsdecode(b"caf\xe9.bin"), os.fsdecode(b"\xe9" * 5000)
    run("send", "-p", free_port(), odd, odd).wants(2, "", told % 4)
    run(odd).wants(2, "", told % 1)
    run("sb", "caf\u00e9", long).wants(2, "", "error: a word is not UTF-8\n")
    run("sb", long, odd).wants(2, "", told % 3)


@sentence("tells its version")
def test_version():
    """The program's version and nothing else goes to standard output."""
    number = subprocess.run(
        [os.path.join(ROOT, "tools", "version.py")], capture_output=True, text=True, check=True
    )
    for word in ("--version", "-V"):
        run(word).wants(0, "ymodem " + number.stdout)
