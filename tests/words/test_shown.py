"""What `send` and `receive` show on a terminal, and how far they tell that files are."""

import os
import re
import socket
import threading
import time

from support.cases import case, cases, sentence
from support.frames import ACK, ACK_START, END, EOT, NAK, START, block, frames_of, header
from support.peers import PlainReceiver, called, frames_at, receive_from, send_to
from support.program import (
    LIMIT,
    PROGRAM,
    connected,
    file_lines,
    folders,
    free_port,
    run,
    running,
    wants_stored,
    write_files,
)
from support.talking import talks
from support.telling import DATA, FILE, coming, connecting, line, listening, missing, under_terminal
from support.terminal import UnderTerminal


@sentence("tells on a terminal what it does")
def test_transfer_under_terminals():
    """Both ends on terminals: what they do, and what they print."""
    with folders() as (here, there):
        paths, port = write_files(here, FILE), free_port()
        with under_terminal("receive", "-p", port, there) as receive:
            receive.sees(line("listening on 127.0.0.1:%d" % port))
            with under_terminal("send", "-p", port, *paths) as send:
                send.sees(line("connecting to 127.0.0.1:%d" % port))
                send.sees(line("sender done 1 finished"))
                assert send.ended() == 0, "the status of send"
            receive.sees(line("connected"))
            receive.sees(line("file first.bin %d - -" % len(DATA)))
            receive.sees(line("receiver files 1 finished"))
            assert receive.ended() == 0, "the status of receive"
        wants_stored(there, FILE)


@sentence("tells nothing on a terminal with --quiet")
def test_quiet_on_a_terminal():
    with folders() as (here, _):
        with under_terminal("send", "-p", free_port(), "--quiet", missing(here)) as send:
            assert send.sees(line("fault: device")) == b"", "what it showed before the fault"
            assert send.ended() == 3, "the status"
        with under_terminal("send", "-p", free_port(), missing(here)) as send:
            send.sees(line("cannot open '%s': no such file or directory" % missing(here)))
            send.sees(line("fault: device"))


# A name with a mark that turns the direction of text, DEL, and a control of C1.
MARKED = "gpj.\u202e\x7f\x9bexe"
SHOWN = "gpj.\\u{202e}\\u{7f}\\u{9b}exe"


@sentence("shows escapes in names on a terminal alone")
def test_names_on_a_terminal():
    """A name is shown with escapes where a terminal shows it, and goes to a pipe as it is."""
    files = [(MARKED, b"12345")]
    for is_terminal in (True, False):
        with folders() as (here, there):
            paths, port = write_files(here, files), free_port()
            if is_terminal:
                with under_terminal("receive", "-p", port, "--eager", there) as receive:
                    receive.sees(b"listening")
                    run("send", "-p", port, *paths).wants(0, "sender done 1 finished\n")
                    receive.sees(line("file %s 5 - -" % SHOWN))
            else:
                with running("receive", "-p", port, "--eager", there) as receive, running(
                    "send", "-p", port, *paths
                ):
                    receive.ended().wants(0, file_lines(files) + "receiver files 1 finished\n")
            wants_stored(there, files)


# ---- How far a file is

# How long a peer takes for each answer: longer than a terminal waits between two showings, which is
# 0.1 seconds, by more than a busy machine is late with one.
PACE = 0.5

# The whole file, in as many seconds and, where they were enough to tell, at such a rate.
WHOLE = rb"first\.bin: 5120 bytes in \d+\.\d s(, \d+ k?B/s)?"


def paced(damaged=None):
    """A receiver that takes its time for each answer, and refuses the frame of one number once."""

    def peer(end):
        receiver, refused = PlainReceiver(), set()
        end.sendall(bytes((START,)))
        for at, frame in enumerate(frames_at(end)):
            time.sleep(PACE)
            if at == damaged and not refused:
                refused.add(at)
                end.sendall(bytes((NAK,)))
            else:
                end.sendall(receiver.answer(frame))
            if receiver.is_finished:
                return

    return peer


def damaging(count, pace=0.0):
    """A sender that takes so many seconds for each frame, and whose second block comes damaged so
    often."""

    def peer(end):
        for at, frame in enumerate(frames_of(FILE)):
            if at == 0:
                end.recv(1)
            time.sleep(pace)
            for _ in range(count if at == 2 else 0):
                end.sendall(frame[:-1] + bytes((frame[-1] ^ 1,)))
                assert end.recv(1) == bytes((NAK,)), "the answer to a damaged block"
            end.sendall(frame)
            if frame[0] == EOT:
                assert end.recv(1) == bytes((NAK,)), "the answer to the first EOT"
                end.sendall(frame)
            assert end.recv(1) == bytes((ACK,)), "an answer"
            if frame[0] == EOT or at == 0:
                assert end.recv(1) == bytes((START,)), "the call for more"

    return peer


def refusing(count):
    """A receiver that refuses the second block so often."""

    def peer(end):
        receiver, left = PlainReceiver(), count
        end.sendall(bytes((START,)))
        for frame in frames_at(end):
            if frame[:2] == b"\x02\x02" and left:
                left -= 1
                end.sendall(bytes((NAK,)))
            else:
                end.sendall(receiver.answer(frame))
            if receiver.is_finished:
                return

    return peer


def shows_progress(child):
    """What a terminal shows of the file, of which one block was repeated: its lines in place, and
    the one that stays."""
    child.sees(b"\rfirst.bin: 20%, 1024 of 5120 bytes")
    child.sees(b"\rfirst.bin: 60%, 3072 of 5120 bytes, ")
    child.sees(b" left, 1 repeated")
    child.sees(b"\r\x1b[?7hfirst.bin: 5120 bytes in ")
    child.sees(b"B/s, 1 repeated\r\n")


@sentence("shows how far a file is that is sent")
def test_progress_of_send():
    with folders() as (here, _), socket.create_server(("127.0.0.1", 0)) as listener:
        paths = write_files(here, FILE)
        with under_terminal("send", "-p", listener.getsockname()[1], *paths) as send:
            end = called(listener)
            with end:
                peer = threading.Thread(target=paced(damaged=2), args=(end,), daemon=True)
                peer.start()
                shows_progress(send)
                send.sees(line("sender done 1 finished"))
                peer.join(LIMIT)


@sentence("shows how far a file is that is received")
def test_progress_of_receive():
    with folders() as (_, there):
        port = free_port()
        with under_terminal("receive", "-p", port, "--eager", there) as receive:
            receive.sees(b"listening")
            with connected(port) as end:
                peer = threading.Thread(target=damaging(1, PACE), args=(end,), daemon=True)
                peer.start()
                shows_progress(receive)
                receive.sees(line("receiver files 1 finished"))
                peer.join(LIMIT)
        wants_stored(there, FILE)


@cases(
    case("shows no line as wide as the terminal", "60", 59),
    case("shows lines where COLUMNS is 0, as where it is not set", "0", 79),
)
def test_width_of_a_terminal(columns, most):
    """No line that is shown in place is as wide as the terminal."""
    name = "a name that is as long as names seldom are.bin"
    with folders() as (here, _), socket.create_server(("127.0.0.1", 0)) as listener:
        (path,) = write_files(here, [(name, DATA)])
        words = ["send", "-p", listener.getsockname()[1], path]
        send = UnderTerminal([PROGRAM, *map(str, words)], env={**os.environ, "COLUMNS": columns})
        try:
            with called(listener) as end:
                peer = threading.Thread(target=paced(), args=(end,), daemon=True)
                peer.start()
                send.sees(b"\r")
                shown = b""
                while b"sender done" not in shown:
                    shown += os.read(send.end, 65536)
                peer.join(LIMIT)
        finally:
            send.stop()
        # without what asks the terminal to cut a line
        shown = re.sub(rb"\x1b\[[?0-9]*[A-Za-z]", b"", shown.partition(b"\r\n")[0])
        found = [it for it in re.split(b"[\r]", shown) if b"%" in it]
        assert found and max(len(it) for it in found) <= most, "the lines are %r" % found


@sentence("tells a line for each whole file with --verbose")
def test_whole_files_in_lines():
    """Where no terminal is, --verbose tells a line for each file, and nothing in place."""
    with folders() as (here, there):
        paths, port = write_files(here, FILE), free_port()
        with running("receive", "-p", port, "--eager", "--verbose", there) as receive:
            first = listening(port) + "connected\n" + coming("first.bin", len(DATA))
            connected_to = re.escape(first.encode())
            assert receive.child.stderr.readline().decode() == listening(port), "its first line"
            send = run("send", "-p", port, "--verbose", *paths)
            ended = receive.ended()
        for got, began in (
            (send.err.encode(), re.escape(connecting(port).encode())),
            (listening(port).encode() + ended.err.encode(), connected_to),
        ):
            assert re.fullmatch(began + WHOLE + b"\n", got), "it told %r" % got


@cases(
    case("counts no repeat with --verbose", 0),
    case("counts a repeat with --verbose", 1),
    case("counts three repeats with --verbose", 3),
)
def test_counts_repeats(count):
    """With --verbose both ends tell how many blocks were repeated."""
    wanted = WHOLE + (b", %d repeated" % count if count else b"")
    with folders() as (_, there):
        received = receive_from(damaging(count), there, ("--eager", "--verbose"))
        received.wants(0, file_lines(FILE) + "receiver files 1 finished\n", received.err)
    sent = send_to(refusing(count), FILE, ("--verbose",))
    sent.wants(0, "sender done 1 finished\n", sent.err)
    for ended in (received, sent):
        assert re.fullmatch(wanted, ended.err.splitlines()[-1].encode()), "it told %r" % ended.err


SURPLUS = (
    "more came of '%s' than the length that its sender stated, %d, and was dropped; "
    "send a file that does not grow, and no pipe"
)


@cases(
    case("counts no data past a length as repeats", 0, b""),
    case("counts a repeat between data past a length", 1, b", 1 repeated"),
)
def test_counts_no_data_past_a_length(repeats, counted):
    """What is behind the length of a file is dropped, and did not come before."""
    ack, last = bytes((ACK,)), bytes((EOT,))
    peer = talks(
        (header(b"a", b"3"), ACK_START),
        (block(1, b"abc" + bytes(125)), ack),
        (block(2, bytes(128)), ack),
        *[(block(2, bytes(128)), ack)] * repeats,
        (block(3, bytes(1024)), ack),
        (last, bytes((NAK,))),
        (last, ACK_START),
        (END, ack),
    )
    with folders() as (_, there):
        ended = receive_from(peer, there, ("--verbose",))
        wants_stored(there, [("a", b"abc")])
    ended.wants(0, "file a 3 - -\nreceiver files 1 finished\n", ended.err)
    told = rb"a: 3 bytes in \d+\.\d s(, \d+ k?B/s)?" + counted
    whole, dropped = ended.err.splitlines()[-2:]
    assert re.fullmatch(told, whole.encode()), "it told %r" % ended.err
    assert dropped == SURPLUS % ("a", 3), "it told %r" % ended.err
