"""Records that `--record` makes of a line: what they say passed, and what becomes of those that
cannot be made.

What has to stand in a record is what the other end of the line saw, what the rules of the frames
make of the files, or what the record of the other end says.
"""

import contextlib
import fcntl
import os
import signal
import socket
import subprocess
import tempfile

from support.bounds import writing
from support.cable import cable, set_for_ticks
from support.cases import case, cases, sentence
from support.explained import PIECE, told, ways
from support.frames import EOT, frames_of
from support.program import LIMIT, PROGRAM, ROOT, free_port, running, stored, write_files
from support.skipping import needs
from support.tap import tapped
from support.telling import FAULT
from support.waits import wait_until


WHOLE = "the session is whole: nothing went wrong"
FILES = [("a.txt", b"0123456789\n" * 300), ("b.bin", bytes(range(256)) * 9)]
# What is told of a record that cannot be made, behind the path of its file.
REASON = "; name a file that can be written\n"
IS_THERE = "cannot record in '%s', which is there already: this connection has no record\n"


@contextlib.contextmanager
def place():
    """A folder with the files in `from`, and an empty folder `to`."""
    with tempfile.TemporaryDirectory(prefix="ymodem-") as top:
        for name in ("from", "to"):
            os.mkdir(os.path.join(top, name))
        write_files(os.path.join(top, "from"), FILES)
        yield top


def text_of(*path):
    with open(os.path.join(*path), encoding="ascii") as it:
        return it.read()


def sent(top):
    return [os.path.join(top, "from", name) for name, _ in FILES]


def batch(eots=2):
    """What a sender writes of the files. Our receiver has each first EOT repeated."""
    frames = frames_of(FILES)
    return b"".join(it * eots if it == bytes((EOT,)) else it for it in frames)


def once(there):
    """What a sender wrote, with its first block 0 once: it answers each C that came before it began,
    which is more than one where it began three seconds late."""
    first = frames_of(FILES)[0]
    while there.startswith(2 * first):
        there = there[len(first) :]
    return there


def whole(top, record, eots=2):
    """What a record of the whole batch has of each way: its frames and nothing else went there, by
    the rules of frames. It says so, and its moments do not go back."""
    path = os.path.join(top, record)
    there, back = ways(text_of(path))
    assert once(there) == batch(eots), "it has other frames than the batch: %r" % there[:80]
    assert set(back) <= set(b"C\x06\x15"), "it has other answers: %r" % back[:80]
    assert told(path)[-1] == WHOLE, "it is told as %r" % told(path)[-1]
    moments = [float(it) for it, _, _ in PIECE.findall(text_of(path))]
    assert moments == sorted(moments), "its moments go back"
    return there, back


def ends_well(child, status=0, err=""):
    ended = child.ended()
    assert ended.status == status, "status %d: %r" % (ended.status, ended.err)
    assert ended.err == err, "it told %r, wanted %r" % (ended.err, err)


def call(top, *words, record, port):
    return running("send", "--port", port, "--record", os.path.join(top, record), *words)


def pass_with(top, record):
    """The files pass from `send`, which records there, to `receive`."""
    port = free_port()
    with running("receive", "--eager", "--port", port, os.path.join(top, "to")) as receive:
        with call(top, *sent(top), record=record, port=port) as send:
            ends_well(send)
        ends_well(receive)


@sentence("a record: send and receive")
def test_over_a_connection():
    """`send` and `receive` record alike what passed between them, also behind `--quiet`."""
    with place() as top:
        port, to = free_port(), os.path.join(top, "to")
        there = os.path.join(top, "there")
        with running("receive", "--eager", "--port", port, "--record", there, to) as receive:
            with call(top, "--quiet", *sent(top), record="here", port=port) as send:
                ends_well(send)
            ends_well(receive)
        assert stored(to) == dict(FILES), "other files came"
        assert whole(top, "here") == whole(top, "there"), "the two records differ"


@sentence("a record: send to rb of lrzsz")
def test_to_rb():
    needs("rb")
    with place() as top, socket.create_server(("127.0.0.1", 0)) as listener:
        with call(top, *sent(top), record="here", port=listener.getsockname()[1]) as send:
            end, _ = listener.accept()
            with end, open(os.devnull, "wb") as nobody:
                how = {"cwd": os.path.join(top, "to"), "stdin": end, "stdout": end}
                done = subprocess.run(["rb"], stderr=nobody, timeout=LIMIT, check=False, **how)
            ends_well(send)
        assert done.returncode == 0, "rb ended with status %d" % done.returncode
        assert stored(os.path.join(top, "to")) == dict(FILES), "other files came"
        whole(top, "here", eots=1)


def child(words, end, **how):
    how = {"stdin": end, "stdout": end, "stderr": subprocess.PIPE, **how}
    return subprocess.Popen(words, **how)


def ended(it):
    _, err = it.communicate(timeout=LIMIT)
    return it.returncode, err.decode()


@sentence("a record: rb from sb of lrzsz")
def test_from_sb():
    """`rb` over standard streams, from `sb` of lrzsz: it has what the line between carried."""
    needs("sb")
    with place() as top, tapped() as (near, far, tap):
        here = os.path.join(top, "here")
        words = [PROGRAM, "rb", "--record", here, os.path.join(top, "to")]
        rb, sb = child(words, far), child(["sb", *sent(top)], near)
        far.close()
        near.close()
        status, err = ended(rb)
        assert ended(sb)[0] == 0 and status == 0, "rb: %d %r" % (status, err)
        assert stored(os.path.join(top, "to")) == dict(FILES), "other files came"
        tap.join(LIMIT)
        kept = (bytes(tap.there), bytes(tap.back))
        assert ways(text_of(here)) == kept, "the line carried something else"
        assert told(here)[-1] == WHOLE, "it is told as %r" % told(here)[-1]


@sentence("a record: sb and rb over standard streams")
def test_over_streams():
    """`sb` and `rb` over standard streams: both have what the line between carried."""
    with place() as top, tapped() as (near, far, tap):
        paths = {it: os.path.join(top, it) for it in ("here", "there")}
        rb = child([PROGRAM, "rb", "--record", paths["there"], os.path.join(top, "to")], far)
        sb = child([PROGRAM, "sb", "--record", paths["here"], *sent(top)], near)
        far.close()
        near.close()
        for it in (sb, rb):
            status, err = ended(it)
            assert status == 0, "status %d: %r" % (status, err)
        tap.join(LIMIT)
        kept = (bytes(tap.there), bytes(tap.back))
        for name in paths:
            assert whole(top, name) == kept, "the line carried something else: %s" % name


@sentence("a record: sb and rb over terminals")
def test_over_terminals():
    """The same over two terminals, by `--line`."""
    with place() as top, cable() as line:
        for it in (line.near, line.far):
            set_for_ticks(it.path)
        to, there, here = (os.path.join(top, it) for it in ("to", "there", "here"))
        with running("rb", "--line", line.far.path, "--record", there, to) as rb:
            with running("sb", "--line", line.near.path, "--record", here, *sent(top)) as sb:
                ends_well(sb)
            ends_well(rb)
        assert stored(to) == dict(FILES), "other files came"
        assert whole(top, "here") == whole(top, "there"), "the two records differ"


@sentence("a record: ymodem-tty hands it on")
def test_by_the_script():
    """`ymodem-tty` hands `--record` on, with its file."""
    with place() as top, cable() as line:
        to, there, here = (os.path.join(top, it) for it in ("to", "there", "here"))
        script = os.path.join(ROOT, "share", "ymodem-tty")
        how = {"stdout": subprocess.DEVNULL, "env": {**os.environ, "YMODEM": PROGRAM}}
        words = [script, "--device", line.far.path, "receive", "--record", there, to]
        receive = child(words, subprocess.DEVNULL, **how)
        words = [script, "--device", line.near.path, "send", "--record=" + here, *sent(top)]
        send = child(words, subprocess.DEVNULL, **how)
        for it in (send, receive):
            status, err = ended(it)
            assert status == 0, "status %d: %r" % (status, err)
        assert whole(top, "here") == whole(top, "there"), "the two records differ"


def has_ended(top, name):
    """Whether the record has the answer to the end block."""
    text = os.path.exists(os.path.join(top, name)) and text_of(top, name)
    return bool(text) and told(os.path.join(top, name))[-1] == WHOLE


@sentence("a record: one for each connection of --keep")
def test_each_of_many():
    """With `--keep` each connection has a record of its own. Where something is in place of a later
    one, as a file that was received, that stays, which is told, and the transfer goes on."""
    with place() as top:
        port, to, path = free_port(), os.path.join(top, "to"), os.path.join(top, "kept")
        write_files(top, [("kept.2", b"received")])
        words = ["receive", "--eager", "--keep", "--port", port, "--record", path, to]
        with running(*words) as receive:
            for number in range(1, 4):
                with running("send", "--port", port, *sent(top)) as send:
                    ends_well(send)
                    wait_until(lambda: stored(to) == dict(FILES), "all is stored", receive)
                    for name, _ in FILES:
                        os.remove(os.path.join(to, name))
                if number != 2:
                    name = "kept" + (".3" if number == 3 else "")
                    wait_until(lambda: has_ended(top, name), "the record is whole", receive)
            receive.child.send_signal(signal.SIGTERM)
            err = receive.ended().err
        wanted = IS_THERE % (path + ".2")
        assert err == wanted, "it told %r, wanted %r" % (err, wanted)
        with open(path + ".2", "rb") as it:
            assert it.read() == b"received", "what was there"
        for name in ("kept", "kept.3"):
            whole(top, name)


@sentence("a record: a file that is there is made anew")
def test_is_made_anew():
    """What a file had is gone, and nothing of it is told."""
    with place() as top:
        port, to = free_port(), os.path.join(top, "to")
        write_files(top, [("here", b"0.000000 > 18\n" * 9000)])
        with running("receive", "--eager", "--port", port, to) as receive:
            with call(top, *sent(top), record="here", port=port) as send:
                ends_well(send)
            ends_well(receive)
        whole(top, "here")


# ---- What cannot be recorded


@contextlib.contextmanager
def pipe(path):
    os.mkfifo(path)
    yield


@contextlib.contextmanager
def locked(path):
    with open(path, "wb") as it:
        fcntl.flock(it, fcntl.LOCK_EX)
        yield


def nobody_called(listener):
    """Whether nobody has called here."""
    listener.settimeout(0)
    try:
        listener.accept()
    except BlockingIOError:
        return True
    return False


@cases(
    case(
        "a record: none in a folder that is not there",
        "no/here",
        "cannot record in '%(path)s': no such file or directory" + REASON,
    ),
    case(
        "a record: none in place of a folder",
        "to",
        "cannot record in '%(path)s': not a regular file" + REASON,
    ),
    case(
        "a record: none in a pipe",
        "pipe",
        "cannot record in '%(path)s': not a regular file" + REASON,
        pipe,
    ),
    case(
        "a record: none in a file that is sent",
        "from/a.txt",
        "cannot record in '%(path)s', which is to be sent: name another file\n",
    ),
    case(
        "a record: none where another program writes",
        "held",
        "cannot record in '%(path)s', which another program writes: name another file\n",
        locked,
    ),
    case(
        "a record: none at -",
        "-",
        "cannot record in '-', which names no file: name one behind --record\n",
    ),
)
def test_is_not_made(path, message, held=contextlib.nullcontext):
    """Of a record that cannot be made it is told which and why, and nobody is called."""
    with place() as top, socket.create_server(("127.0.0.1", 0)) as listener:
        file = path if path == "-" else os.path.join(top, path)
        wanted = message % {"path": file} + FAULT
        with held(file):
            words = ("--port", listener.getsockname()[1], "--record", file, *sent(top))
            with running("send", *words) as send:
                ends_well(send, 3, wanted)
            assert nobody_called(listener), "it has called all the same"
            if path != "from/a.txt":
                words = ("--port", free_port(), "--record", file, os.path.join(top, "to"))
                with running("receive", *words) as receive:
                    ends_well(receive, 3, wanted)
        assert stored(os.path.join(top, "from")) == dict(FILES), "what was to be sent has gone"


@sentence("a record: /dev/null takes it")
def test_is_let_go():
    """A device that takes what comes is written to."""
    with place() as top:
        pass_with(top, "/dev/null")
        assert stored(os.path.join(top, "to")) == dict(FILES), "other files came"


PART = "cannot record in '%s', which is named as a part of a file: name another file\n" + FAULT


@cases(
    case("a record: none with the name of a part: receive", "receive", ("--port", "1")),
    case("a record: none with the name of a part: --keep", "receive", ("--keep", "--port", "1")),
    case("a record: none with the name of a part: rb", "rb", ("--line", "/dev/null")),
)
def test_is_no_part(command, words):
    """Where files are received no record has the name of a part: `--discard-parts` and `rb` remove
    what has one, as soon as the record is not written any more."""
    with place() as top:
        to = os.path.join(top, "to")
        path = os.path.join(to, "a.txt.part")
        write_files(to, [("a.txt.part", b"left by an earlier run")])
        with running(command, *words, "--record", path, to) as end:
            ends_well(end, 3, PART % path)
        assert stored(to) == {"a.txt.part": b"left by an earlier run"}, "something else is there"


@sentence("a record: a sender's may have the name of a part")
def test_may_be_a_part():
    """A sender removes nothing."""
    with place() as top:
        pass_with(top, "here.part")
        whole(top, "here.part")


# ---- What is there before

EARLIER = b"0.000000 < 43\n0.500000 < 43\n"


@cases(
    case(
        "a record: what was there stays: send",
        lambda top, taken: ("send", "--port", free_port(), *sent(top)),
    ),
    case(
        "a record: what was there stays: receive",
        lambda top, taken: ("receive", "--port", taken, os.path.join(top, "to")),
    ),
    case(
        "a record: what was there stays: sb",
        lambda top, taken: ("sb", "--line", "/dev/null", *sent(top)),
    ),
    case(
        "a record: what was there stays: rb",
        lambda top, taken: ("rb", "--line", "/dev/null", os.path.join(top, "to")),
    ),
)
def test_stays_without_a_line(words_of):
    """A record that is there is made anew when the line is there, and not before: words that are
    mistyped cost none."""
    with place() as top, socket.create_server(("127.0.0.1", 0)) as listener:
        path = os.path.join(top, "earlier")
        write_files(top, [("earlier", EARLIER)])
        words = words_of(top, listener.getsockname()[1])
        with running(words[0], "--record", path, *words[1:]) as end:
            assert end.ended().status == 3, "it has not failed"
        with open(path, "rb") as it:
            assert it.read() == EARLIER, "the record that was there has gone"


def listens(port):
    """Whether somebody listens there."""
    with open("/proc/net/tcp", encoding="ascii") as it:
        ends = [line.split()[1:4] for line in it][1:]
    return any(here.endswith(":%04X" % port) and state == "0A" for here, _, state in ends)


@sentence("a record: what was there stays until somebody connects")
def test_stays_until_a_call():
    """A receiver that nobody calls leaves the record that was there."""
    with place() as top:
        path, port = os.path.join(top, "earlier"), free_port()
        write_files(top, [("earlier", EARLIER)])
        words = ("receive", "--port", port, "--record", path, os.path.join(top, "to"))
        with running(*words) as receive:
            # By then the record is open.
            wait_until(lambda: listens(port), "it listens", receive)
            receive.child.send_signal(signal.SIGTERM)
            receive.ended()
        with open(path, "rb") as it:
            assert it.read() == EARLIER, "the record that was there has gone"


# ---- A record of which a write fails


def is_front(path, most):
    """A record of at most so many bytes has the front of what passed. Its last line may be cut."""
    text = text_of(path)
    assert 0 < len(text) <= most, "it has %d bytes" % len(text)
    there, back = ways(text[: text.rindex("\n") + 1])
    assert batch().startswith(there), "other frames stand there"
    assert set(back) <= set(b"C\x06\x15"), "other answers stand there"


@cases(
    case("a record: a full device", "/dev/full", "no space left on device"),
    case("a record: a file that may not grow", "here", "the file system or a limit takes no file so large", most=4096),
)
def test_goes_on(record, why, most=None):
    """Where a write of the record fails, it is told once at the end, and the transfer is whole."""
    with place() as top:
        port, to, path = free_port(), os.path.join(top, "to"), os.path.join(top, record)
        before = writing(most) if most else ()
        with running("receive", "--eager", "--port", port, to) as receive:
            words = ("send", "--port", port, "--record", path, *sent(top))
            with running(*words, before=before) as send:
                ends_well(send, 0, "the record '%s' ends early: %s\n" % (path, why))
            ends_well(receive)
        assert stored(to) == dict(FILES), "other files came"
        if most:
            is_front(path, most)


# ---- What is told of a transfer that failed


@sentence("a record: a transfer that failed names explain")
def test_names_what_explains():
    """Of a transfer that failed it is told who tells what passed."""
    with place() as top, socket.create_server(("127.0.0.1", 0)) as listener:
        path, port = os.path.join(top, "here"), listener.getsockname()[1]
        with call(top, "--verbose", *sent(top), record="here", port=port) as send:
            end, _ = listener.accept()
            with end:
                end.sendall(b"C")
                assert end.recv(1) == b"\x01", "no block 0 came"
                end.sendall(b"\x18\x18")
                while end.recv(4096):
                    pass
            done = send.ended()
        assert done.status == 1, "status %d" % done.status
        last = done.err.splitlines()[-1]
        assert last == "to see what passed: ymodem explain '%s'" % path, "the last line is %r" % last
        said = told(path)
        assert said[-1].startswith("the receiver cancelled"), "it is told as %r" % said[-1]


@sentence("a record: it is there when its end is killed")
def test_is_there_when_killed():
    """Of a sender that is killed the record has all that passed before."""
    with place() as top, socket.create_server(("127.0.0.1", 0)) as listener:
        path, port = os.path.join(top, "here"), listener.getsockname()[1]
        with call(top, *sent(top), record="here", port=port) as send:
            end, _ = listener.accept()
            first = frames_of(FILES)[0]
            with end:
                end.sendall(b"C")
                came = end.recv(len(first), socket.MSG_WAITALL)
                assert came == first, "another frame came"
                # It is written before the next read waits.
                wait_until(
                    lambda: ways(text_of(path))[0] == first, "the record has the frame", send
                )
                send.child.kill()
                send.ended()
        assert ways(text_of(path)) == (first, b"C"), "it has something else"
