"""The sockets themselves: who can reach the program, whom it takes for its peer, and how it ends
where the far end is silent."""

import contextlib
import os
import signal
import socket
import subprocess
import sys

import pytest
from support.cases import case, cases, sentence
from support.frames import ACK, CANCEL, END, START, header
from support.peers import PlainReceiver, receive_from, receive_plainly, send_to
from support.program import LIMIT, connected, folders, free_port, run, running, write_files
from support.skipping import Skipped
from support.storing import received, told
from support.talking import SCRIPT, expect, expect_no_more, talks
from support.tracing import calls_of, is_stopped, strace
from support.waits import listeners, wait_until


pytestmark = pytest.mark.steadily

# 127.0.0.1, as the system writes it
LOCAL = "0100007F"

# Within a network of its own, in which the system has one port alone to connect from: the one that
# is called.
ALONE = """
import fcntl, os, socket, struct, sys
with socket.socket() as any_:
    name = struct.pack("16sh14x", b"lo", 0)
    flags = struct.unpack("16sh14x", fcntl.ioctl(any_, 0x8913, name))[1]
    fcntl.ioctl(any_, 0x8914, struct.pack("16sh14x", b"lo", flags | 1))
with open("/proc/sys/net/ipv4/ip_local_port_range", "w") as range_:
    range_.write("%s %s" % (sys.argv[1], sys.argv[1]))
os.execvp(sys.argv[2], sys.argv[2:])
"""
LONELY_PORT = 40_000
ITSELF = (
    "import socket; end = socket.create_connection(('127.0.0.1', %d)); assert end.getsockname() =="
    " end.getpeername()" % LONELY_PORT
)


def other_addresses():
    """Addresses of this machine that are not 127.0.0.1."""
    found = ["127.0.0.2", "127.255.255.254"]
    with contextlib.suppress(OSError), socket.socket(socket.AF_INET, socket.SOCK_DGRAM) as out:
        # Nothing is sent: the system only chooses the address to send from.
        out.connect(("192.0.2.255", 9))
        found.append(out.getsockname()[0])
    return found


def wants_unreachable(port):
    assert listeners(port) == [LOCAL], "it listens at %s" % ", ".join(listeners(port))
    for address in other_addresses():
        try:
            socket.create_connection((address, port), timeout=LIMIT).close()
        except ConnectionRefusedError:
            continue
        raise AssertionError("it can be reached at " + address)


@sentence("sockets: receive listens at 127.0.0.1 alone")
def test_receive_listens_here():
    with folders() as (_, there):
        port = free_port()
        with running("receive", "--port", port, there) as receive:
            wait_until(lambda: listeners(port), "it listened", receive)
            wants_unreachable(port)
            with socket.create_connection(("127.0.0.1", port), timeout=LIMIT) as end:
                talks((END, bytes((ACK,))))(end)
            receive.ended().wants(0, "receiver files 0 finished\n")


@contextlib.contextmanager
def stopped_loop(behind):
    """`loop`, stopped behind its first call of this name."""
    port = free_port()
    with folders() as (log, _):
        log = os.path.join(log, "log")
        words = strace(log, "-e", "trace=network", "-e", "inject=%s:signal=STOP:when=1" % behind)
        with running("loop", "--port", port, given=SCRIPT, before=words) as loop:
            wait_until(lambda: is_stopped(log), "it was stopped", loop)
            yield loop, port


def loop_goes_on(loop):
    os.kill(loop.child.pid, signal.SIGCONT)
    return loop.ended()


@sentence("sockets: loop listens at 127.0.0.1 alone")
def test_loop_listens_here():
    with stopped_loop("connect") as (loop, port):
        wants_unreachable(port)
        played = run("play", given=SCRIPT)
        loop_goes_on(loop).wants(0, played.out)


@sentence("sockets: loop, and somebody who connects first")
def test_stranger_first():
    """Somebody connects to `loop` before it does itself, and gets nothing of what it carries."""
    with stopped_loop("listen") as (loop, port), socket.create_connection(
        ("127.0.0.1", port), timeout=LIMIT
    ) as stranger:
        loop_goes_on(loop).wants(3, "", "fault: device\n")
        expect_no_more(stranger)


@sentence("sockets: loop, and somebody who connects behind it")
def test_stranger_second():
    """Somebody connects to `loop` behind itself, and is neither heard nor told anything."""
    with stopped_loop("connect") as (loop, port), socket.create_connection(
        ("127.0.0.1", port), timeout=LIMIT
    ) as stranger:
        stranger.sendall(b"\x00" * 2048)
        played = run("play", given=SCRIPT)
        loop_goes_on(loop).wants(0, played.out)
        expect_no_more(stranger)


def alone():
    """Such a network, for root and for others."""
    before = (
        "unshare",
        "-n" if os.geteuid() == 0 else "-rn",
        sys.executable,
        "-c",
        ALONE,
        str(LONELY_PORT),
    )
    try:
        probe = subprocess.run(
            [*before, sys.executable, "-c", ITSELF], stderr=subprocess.PIPE, check=False
        )
    except FileNotFoundError:
        raise Skipped("unshare is not installed") from None
    if probe.returncode:
        raise Skipped("no network can be made here in which a socket connects to itself")
    return before


@sentence("sockets: send connects to itself")
def test_connects_to_itself():
    """Nobody listens, and the one port that the system has to connect from is the one that is
    called."""
    before = alone()
    with folders() as (here, _):
        paths = write_files(here, [("a", b"abc")])
        run("send", "--port", LONELY_PORT, *paths, before=before).wants(3, "", "fault: device\n")


@sentence("sockets: loop, and a far end that gets nothing")
def test_silent_far_end():
    """The system says that it took a byte of a delivery, and hands on none: the far end waits for
    it, but not for ever."""
    with folders() as (log, _):
        lost = strace(
            os.path.join(log, "log"), "-e", "trace=sendto", "-e", "inject=sendto:retval=1:when=1"
        )
        ended = run("loop", "--port", free_port(), given=SCRIPT, before=lost)
        ended.wants(3, ended.out, "fault: device\n")
        assert (
            len([it for it in calls_of(os.path.join(log, "log")) if it.is_injected]) == 1
        ), "no delivery was lost"
        assert "finished" not in ended.out, "loop told %r" % ended.out


def written_to(call):
    """How many bytes a write of a connection was given."""
    return int(call.arguments.rsplit(", ", 4)[1])


@sentence("sockets: send writes the rest of a frame")
def test_part_of_a_frame():
    """The system says that it took a byte of the first frame, and hands on none. The rest goes out
    in the next write, and the frame goes out again, since it came damaged."""
    files = [("a", b"abc")]
    with folders() as (here, there), folders() as (log, _):
        log, port = os.path.join(log, "log"), free_port()
        part = strace(log, "-e", "trace=sendto", "-e", "inject=sendto:retval=1:when=1")
        with running("receive", "--port", port, there) as receive:
            wait_until(lambda: listeners(port), "it listened", receive)
            words = ("send", "--port", port, *write_files(here, files))
            run(*words, before=part).wants(0, "sender done 1 finished\n")
            receive.ended().wants(0, told(files))
        first, second, *_ = calls_of(log)
        assert first.is_injected, "no part was taken: %r" % first
        assert written_to(second) == written_to(first) - 1, "the write behind it: %r" % second


def wants_nodelay(log, count):
    calls = calls_of(log)
    sets = [
        it
        for it in calls
        if it.name == "setsockopt" and "TCP_NODELAY, [1]" in it.arguments and it.answer == "0"
    ]
    ends = {it.arguments.split(",")[0] for it in sets}
    writes = {
        it.arguments.split(",")[0]
        for it in calls
        if it.name in ("sendto", "sendmsg", "write") and int(it.answer) > 0
    }
    assert len(ends) == count and writes <= ends, "%d connections send at once, of %d" % (
        len(ends),
        max(count, len(writes)),
    )


def receives(before, there):
    received([("a", b"abc")], there, before=before)[0].wants(0, told([("a", b"abc")]))


def sends(before, _):
    receiver = PlainReceiver()
    send_to(lambda end: receive_plainly(end, receiver), [("a", b"abc")], before=before).wants(
        0, "sender done 1 finished\n"
    )


def loops(before, _):
    ended = run("loop", "--port", free_port(), given=SCRIPT, before=before)
    ended.wants(0, ended.out)


@cases(
    case("sockets: receive sends at once", receives, 1),
    case("sockets: send sends at once", sends, 1),
    case("sockets: loop sends at once at both ends", loops, 2),
)
def test_nodelay(do, count):
    """Each connection sends what it has at once."""
    with folders() as (log, there):
        log = os.path.join(log, "log")
        do(strace(log, "-e", "trace=network"), there)
        wants_nodelay(log, count)


# A byte is written, and the next one within the second that the program waits for more of a
# delivery: one of 2048 such bytes would last for a quarter of an hour. The program takes ten of its
# waits of them: 30 seconds in `receive`, and 100 in `send`.
GAP = 0.5
RECEIVE_TAKES = 120
SEND_TAKES = 300


def drips(end, most, heard):
    """Writes a byte of noise again and again, but no more than so many, until the program has
    written what it does where a delivery has ended."""
    end.settimeout(GAP)
    for _ in range(most):
        end.sendall(b"\x55")
        with contextlib.suppress(TimeoutError):
            got = end.recv(65536)
            assert got == heard, "it wrote %s, wanted %s" % (got.hex(), heard.hex())
            return
    raise AssertionError("after %d bytes it still waited for more of them" % most)


@pytest.mark.slow
@sentence("sockets: a sender that writes a byte every half second")
def test_slow_sender():
    """The bytes of a frame that never ends come one by one: `receive` asks again."""

    def peer(end):
        end.sendall(b"\x02")
        drips(end, RECEIVE_TAKES, bytes((START,)))
        end.settimeout(LIMIT)
        end.sendall(CANCEL)

    with folders() as (_, there):
        ended = receive_from(peer, there)
        ended.wants(1, ended.out)


@pytest.mark.slow
@sentence("sockets: a receiver that writes a byte every half second")
def test_slow_receiver():
    """Bytes that are no reply come one by one: `send` writes its frame again."""

    def peer(end):
        end.sendall(bytes((START,)))
        frame = header(b"a", b"3")
        expect(end, frame)
        drips(end, SEND_TAKES, frame)
        end.settimeout(LIMIT)
        end.sendall(CANCEL)

    ended = send_to(peer, [("a", b"abc")])
    ended.wants(1, "sender done 0 cancelled\n")


# What a listener answers at first, so often, and then a connection.
AT_FIRST = 3


@cases(
    case(
        "sockets: receive --keep, and a connection that was gone before it was taken",
        "ECONNABORTED",
        "the other end broke the connection off",
    ),
    case("sockets: receive --keep, and many open files", "EMFILE", "too many files are open"),
    case("sockets: receive --keep, and many of the system", "ENFILE", "too many files are open"),
    case("sockets: receive --keep, and little memory", "ENOMEM", "out of memory"),
)
def test_outlives(error, why):
    """It is tried again, with a pause before each try, and told once."""
    with folders() as (log, there):
        log, port = os.path.join(log, "log"), free_port()
        inject = "inject=accept4:error=%s:when=1..%d" % (error, AT_FIRST)
        before = strace(log, "-e", "trace=accept4,nanosleep,clock_nanosleep", "-e", inject)
        words = ("receive", "--port", port, "--keep", "--eager", "--verbose", there)
        with running(*words, before=before) as receive:
            with connected(port, receive) as end:
                talks((b"", bytes((START,))), (END, bytes((ACK,))))(end)
            receive.child.terminate()
            ended = receive.ended()
        ended.wants(-signal.SIGTERM, "receiver files 0 finished\n", ended.err)
        told_once = "no connection at 127.0.0.1:%d: %s; trying again\n" % (port, why)
        assert ended.err.count("trying again") == 1 and told_once in ended.err, ended.err
        names = [it.name for it in calls_of(log)][: 2 * AT_FIRST + 1]
        tries, pauses = names[::2], names[1::2]
        assert set(tries) == {"accept4"} and all("sleep" in it for it in pauses), names


@cases(
    case("sockets: receive --keep, and a listener that is none", "ENOTSOCK"),
    case("sockets: receive --keep, and a listener that does not listen", "EINVAL"),
    case("sockets: receive --keep, and a listener that is closed", "EBADF"),
)
def test_ends_where_it_lasts(error):
    with folders() as (log, there):
        before = strace(os.path.join(log, "log"), "-e", "inject=accept4:error=%s" % error)
        ended = run("receive", "--port", free_port(), "--keep", there, before=before)
        ended.wants(3, "", "fault: device\n")


@sentence("sockets: receive, of whose first hundred reads none waits")
def test_reads_that_do_not_wait():
    """Each is made again, for as long as it was to wait."""
    with folders() as (log, there):
        log = os.path.join(log, "log")
        before = strace(log, "-e", "trace=recvfrom", "-e", "inject=recvfrom:error=EAGAIN:when=1..100")
        port = free_port()
        with running("receive", "--port", port, "--eager", there, before=before) as receive:
            with connected(port, receive) as end:
                talks((b"", bytes((START,))), (END, bytes((ACK,))))(end)
            receive.ended().wants(0, "receiver files 0 finished\n")
        assert sum(it.is_injected for it in calls_of(log)) == 100, "other reads were refused"
