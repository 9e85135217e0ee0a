"""What `send`, `receive` and `loop` tell on standard error with --verbose, and that where nobody
looks the fault line is all that they write there."""

import contextlib
import fcntl
import os
import socket
import time

from support.cases import case, cases, sentence
from support.frames import ACK, ACK_START, CANCEL, END, EOT, NAK, START, header
from support.other_user import not_by_root
from support.peers import PlainReceiver, frames_at, receive_from, send_to
from support.program import folders, free_port, run, running, wants_stored, write_files
from support.telling import DATA, FAULT, FILE, coming, connecting, listening, missing


LOUD = ("--verbose",)
ECHOES = "the line echoes what is sent: is a %s running there?\n"
NOT_SAFE = header(b"../first", b"0")
NOT_UTF_8 = header(b"first\xff", b"0")
# As long as a name may be, and with the ending of its part's.
OWN_PART = 250 * "n" + ".part"
THERE = "cannot store '%s': it is there already; move it away first\n"
CANCELLED = "the other end cancelled (CAN CAN)\n"
CLOSED = "the other end closed the connection\n"
UNSAFE = "the sender gave the unsafe name '../first': a path, or with control characters\n"
NO_TEXT = "the sender gave an unsafe name: a path, not UTF-8, or with control characters\n"


@cases(
    case(
        "tells why a file is not sent: it is missing",
        missing,
        "cannot open '%s': no such file or directory\n",
    ),
    case(
        "tells why a file is not sent: it is a folder",
        lambda here: here,
        "cannot open '%s': not a regular file\n",
    ),
    case(
        "tells why a file is not sent: it hides its bytes",
        lambda _: "/proc/version",
        "cannot open '%s': the system does not tell its length; send a copy of it\n",
    ),
)
def test_unsent(path, told):
    """A file that cannot be sent: the fault line alone, and with --verbose why."""
    with folders() as (here, _):
        name = path(here)
        run("send", "-p", free_port(), name).wants(3, "", FAULT)
        run("send", "-p", free_port(), "--verbose", name).wants(3, "", told % name + FAULT)
        run("send", "-p", free_port(), "--verbose", "--quiet", name).wants(3, "", FAULT)


@cases(
    case("tells why a file is not stored: it is there", (), FILE, THERE % "first.bin"),
    case(
        "tells why a file is not stored: a part is left",
        (),
        [("first.bin.part", b"left")],
        (
            "cannot store 'first.bin': 'first.bin.part' is there; wait for the receiver that"
            " writes it, or use --discard-parts where an earlier run left it\n"
        ),
    ),
    case(
        "tells why a file is not stored: its part is in use",
        ("--discard-parts",),
        [("first.bin.part", b"held")],
        (
            "cannot store 'first.bin': 'first.bin.part' is in use by another program, may"
            " not be read, is no regular file, or may be a file of this batch; wait for that"
            " program, or move it away\n"
        ),
        lock=True,
    ),
)
def test_unstored(flags, there_is, told, lock=False):
    """A file that cannot be stored, and what is told of it."""
    with folders() as (here, there), contextlib.ExitStack() as later:
        paths = write_files(here, FILE)
        for path in write_files(there, there_is):
            held = later.enter_context(open(path, "rb"))
            if lock:
                fcntl.flock(held, fcntl.LOCK_EX)
        for loud in (False, True):
            port = free_port()
            with running(
                "receive", "-p", port, "--eager", *flags, *(LOUD if loud else ()), there
            ) as receive, running("send", "-p", port, *paths):
                more = (
                    listening(port) + "connected\n" + coming("first.bin", len(DATA)) + told
                    if loud
                    else ""
                )
                receive.ended().wants(3, "receiver files 0 sink-failed\n", more + FAULT)
        wants_stored(there, there_is)


@sentence("tells that a part was replaced")
def test_replaces_a_part():
    """A part that was left is removed as it was asked for: what goes to a pipe says nothing of it,
    and somebody who looks is told."""
    for flags in ((), LOUD, (*LOUD, "--quiet")):
        with folders() as (here, there):
            paths, port = write_files(here, FILE), free_port()
            write_files(there, [("first.bin.part", b"left")])
            words = ("receive", "-p", port, "--eager", "--discard-parts", *flags, there)
            with running(*words) as receive, running("send", "-p", port, *paths):
                ended = receive.ended()
            wants_stored(there, FILE)
        assert ended.status == 0, "the status"
        told = [it for it in ended.err.splitlines() if "first.bin.part" in it]
        line = "'first.bin.part', left from an earlier run, was replaced"
        assert told == ([line] if flags == LOUD else []), "what it told"
        assert bool(ended.err) == (flags == LOUD), "whether it told anything"


def a_file(here):
    return write_files(here, FILE)[0]


def read_only(here):
    closed = os.path.join(here, "closed")
    for folder in (os.path.dirname(here), here):
        os.chmod(folder, 0o755)
    os.mkdir(closed)
    os.chmod(closed, 0o555)
    return closed


@cases(
    case(
        "tells that the folder is missing, before it listens", missing, "no such file or directory"
    ),
    case("tells that the folder is none, before it listens", a_file, "not a directory"),
    case(
        "tells that the folder is only read, before it listens",
        read_only,
        "permission denied",
        not_by_root,
    ),
)
def test_no_folder(make, told, before=tuple):
    """A folder that nothing can be stored in is told before anybody can connect: the program ends
    by itself."""
    with folders() as (here, _):
        there, words = make(here), before()
        run("receive", "--port", free_port(), there, before=words).wants(3, "", FAULT)
        run("receive", "--port", free_port(), "--verbose", there, before=words).wants(
            3, "", "cannot store in '%s': %s\n" % (there, told) + FAULT
        )


@cases(
    case("tells that a port is in use: receive", ("receive",)),
    case("tells that a port is in use: loop", ("loop",)),
)
def test_port_in_use(words=()):
    """A port at which somebody listens."""
    with folders() as (_, there), socket.create_server(("127.0.0.1", 0)) as held:
        port = held.getsockname()[1]
        more = [there] if words[0] == "receive" else []
        run(*words, "-p", port, *more, given=b"").wants(3, "", FAULT)
        told = "port %d is in use by another program: choose another one\n" % port
        run(*words, "-p", port, "--verbose", *more, given=b"").wants(3, "", told + FAULT)


@sentence("tells that nobody listens")
def test_nobody_listens():
    with folders() as (here, _):
        paths, port = write_files(here, FILE), free_port()
        run("send", "-p", port, *paths).wants(3, "", FAULT)
        told = (
            connecting(port) + "nobody listens on 127.0.0.1:%d: is the receiver running?\n" % port
        )
        run("send", "-p", port, "--verbose", *paths).wants(3, "", told + FAULT)


def reads(end, wanted):
    """Reads a reply, which is this one."""
    got = b""
    while len(got) < len(wanted):
        piece = end.recv(1)
        if not piece:
            break
        got += piece
    assert got == wanted, "the reply"


def leaves_it(_):
    pass


def takes_the_name(there):
    write_files(there, [("a", b"new")])


def replaces_the_part(there):
    os.rename(os.path.join(there, "a.part"), os.path.join(there, "other"))
    os.symlink("other", os.path.join(there, "a.part"))


@cases(
    case(
        "tells why a file is not stored: its name came meanwhile",
        takes_the_name,
        THERE % "a",
        ["a"],
    ),
    case(
        "tells why a file is not stored: its part was replaced",
        replaces_the_part,
        "cannot store 'a': 'a.part' was changed by another program\n",
        ["a.part", "other"],
    ),
    case(
        "tells why a file is not stored: it is its own part",
        leaves_it,
        "cannot store '%s': its part would have the same name; send it under a shorter one\n"
        % OWN_PART,
        [],
        OWN_PART,
    ),
)
def test_meanwhile(change, told, kept, name="a"):
    """An empty file that is not stored, since its folder is changed while its part is open, or its
    part has its name: what is told, and what the folder has then."""
    for flags in ((), LOUD):
        with folders() as (_, there):

            def peer(end):
                end.recv(1)
                end.sendall(header(name.encode()))
                reads(end, ACK_START)
                change(there)
                end.sendall(bytes((EOT,)))
                reads(end, bytes((NAK,)))
                end.sendall(bytes((EOT,)))
                reads(end, CANCEL)

            ended = receive_from(peer, there, ("--eager", *flags))
            if flags:
                assert ended.err.split("\n", 2)[2] == coming(name, 0) + told + FAULT, "what it told"
            else:
                ended.wants(3, "receiver files 0 sink-failed\n", FAULT)
            assert sorted(os.listdir(there)) == kept, "what the folder has"


def cancels(end):
    end.sendall(CANCEL)
    while end.recv(4096):
        pass


def leaves(end):
    end.sendall(bytes((START,)))
    end.recv(1)


@cases(
    case("tells that a receiver cancelled", cancels, 1, "cancelled", CANCELLED),
    case("tells that a receiver left", leaves, 3, "running", CLOSED, "fault: closed\n"),
)
def test_sent_to(peer, status, state, told, fault=""):
    """How `send` ends against this peer, and what it tells of it."""
    ended = send_to(peer, FILE)
    ended.wants(status, "sender done 0 %s\n" % state, fault)
    loud = send_to(peer, FILE, LOUD)
    began, _, rest = loud.err.partition("\n")
    assert began.startswith("connecting to 127.0.0.1:"), "it told %r" % loud.err
    assert rest == told + fault, "what it told"


def leaves_at_once(end):
    end.recv(1)
    end.shutdown(socket.SHUT_RDWR)


def sends(data):
    def peer(end):
        end.recv(1)
        end.sendall(data)
        while end.recv(4096):
            pass

    return peer


def echoes_frames(end):
    """Hands back each frame before it answers it."""
    receiver = PlainReceiver()
    end.sendall(bytes((START,)))
    for frame in frames_at(end):
        end.sendall(frame)
        end.sendall(receiver.answer(frame))


def echoes_replies(end):
    """Hands back each reply before it goes on."""
    end.sendall(header(b"a"))
    for reply, then in (
        (ACK_START, bytes((EOT,))),
        (bytes((NAK,)), bytes((EOT,))),
        (ACK_START, END),
    ):
        reads(end, reply)
        end.sendall(reply + then)
    reads(end, bytes((ACK,)))


def received_with_echo(flags):
    with folders() as (_, there):
        return receive_from(echoes_replies, there, flags)


@cases(
    case(
        "tells once that the line of a sender echoes",
        lambda flags: send_to(echoes_frames, FILE, flags),
        "receiver",
    ),
    case("tells once that the line of a receiver echoes", received_with_echo, "sender"),
)
def test_told_once(ends, what):
    """It is told once that the line echoes, where somebody looks, and all is whole."""
    for flags in ((), LOUD):
        ended = ends(flags)
        assert ended.status == 0, "the status"
        assert ended.err.count(ECHOES % what) == len(flags), "how often it was told"


def answers_late(end):
    """Answers block 0 and its copy after more than ten seconds each, and then asks for each block
    again."""
    end.sendall(bytes((START,)))
    frames = frames_at(end)
    for seconds in (10.5, 10):
        next(frames)
        time.sleep(seconds)
        end.sendall(ACK_START)
    for frame in frames:
        if frame[1] == 1:
            end.sendall(bytes((NAK,)))


@sentence("tells that answers take longer than usual peers wait")
def test_tells_that_answers_are_late():
    ended = send_to(answers_late, FILE, LOUD)
    ended.wants(1, "sender done 0 no-reply\n", ended.err)
    assert (
        ended.err.splitlines()[-1]
        == "answers take longer than 10 seconds: use a line that hands on sooner"
    ), "what it told"


def goes_on(end):
    """Goes on to another file where only a repeat of block 0 can come."""
    end.sendall(header(b"a"))
    reads(end, ACK_START)
    end.sendall(header(b"b"))
    reads(end, CANCEL)


@cases(
    case("tells that a sender cancelled", sends(CANCEL), 1, "cancelled", CANCELLED),
    case("tells that a sender left", leaves_at_once, 3, "running", CLOSED, "fault: closed\n"),
    case(
        "tells that the ends are out of step",
        goes_on,
        1,
        "out-of-step",
        coming("a", 0) + "a block came out of turn: the two ends are out of step, send again\n",
    ),
    case("tells that a name is not safe", sends(NOT_SAFE), 1, "bad-header name-unsafe", UNSAFE),
    case("tells that a name is no text", sends(NOT_UTF_8), 1, "bad-header name-unsafe", NO_TEXT),
)
def test_received_from(peer, status, state, told, fault=""):
    """The same of `receive`."""
    with folders() as (_, there):
        receive_from(peer, there).wants(status, "receiver files 0 %s\n" % state, fault)
        loud = receive_from(peer, there, LOUD)
        assert loud.err.split("\n", 2)[1:] == ["connected", told + fault], "what it told"
