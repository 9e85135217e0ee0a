"""The example programs of the library for C where a signal ends them: the peer is told, no part of a
file is left, and who started them sees that signal."""

import fcntl
import os
import signal
import socket
import subprocess

from support.cases import case, cases, sentence
from support.example_ends import c_receive, c_send, on_line
from support.frames import ACK_START, CANCEL, START, header
from support.program import LIMIT, folders, write_files
from support.system_calls import WRITE, waits_in
from support.waits import wait_for, wait_until


SIGNALS = (signal.SIGTERM, signal.SIGINT, signal.SIGHUP)


def rest(end):
    """All that comes until the line is closed."""
    found = b""
    while more := end.recv(4096):
        found += more
    return found


def line():
    """The two ends of a line, of which the test has the second one."""
    one, other = socket.socketpair()
    other.settimeout(LIMIT)
    return one, other


def ended(child, number, said):
    """It ended by this signal, and said so."""
    _, told = child.communicate(timeout=LIMIT)
    assert (child.returncode, told.decode()) == (-number, said), (child.returncode, told)


@cases(*(case("receive is ended by %s in a file" % it.name, it) for it in SIGNALS))
def test_receive(number):
    with folders() as (there, _):
        one, other = line()
        with on_line(c_receive(there), one) as child, other:
            other.sendall(header(b"a", b"3"))
            wait_for(other, len(ACK_START))
            assert os.listdir(there) == ["a.part"], os.listdir(there)
            child.send_signal(number)
            found = rest(other)
            assert found.startswith(ACK_START) and found.endswith(CANCEL), found
            ended(child, number, "receive: ended by a signal, files 0\n")
        assert not os.listdir(there), os.listdir(there)


@sentence("receive is ended by SIGTERM before its first file")
def test_receive_waits():
    with folders() as (there, _):
        one, other = line()
        with on_line(c_receive(there), one) as child, other:
            wait_for(other, 1)
            child.send_signal(signal.SIGTERM)
            assert rest(other).lstrip(bytes([START])) == CANCEL
            ended(child, signal.SIGTERM, "receive: ended by a signal, files 0\n")


@cases(*(case("send is ended by %s behind a frame" % it.name, it) for it in SIGNALS))
def test_send(number):
    """CAN CAN stands in a delivery of its own, behind two seconds."""
    with folders() as (here, _):
        write_files(here, [("a", b"new")])
        one, other = line()
        with on_line(c_send(["a"]), one, cwd=here) as child, other:
            other.sendall(b"C")
            wait_for(other, 133)
            child.send_signal(number)
            assert rest(other)[133:].endswith(CANCEL)
            ended(child, number, "send: ended by a signal\n")


@sentence("send is ended by SIGTERM on a line that takes no more")
def test_send_is_stuck():
    """Its write never ends by itself."""
    with folders() as (here, _):
        write_files(here, [("a", b"new")])
        reads, writes = os.pipe()
        os.write(writes, bytes(fcntl.fcntl(writes, fcntl.F_GETPIPE_SZ)))
        how = {"stdin": subprocess.PIPE, "stdout": writes, "stderr": subprocess.PIPE}
        with subprocess.Popen(c_send(["a"]), cwd=here, **how) as child:
            try:
                child.stdin.write(b"C")
                child.stdin.flush()
                waits_in(child.pid, WRITE, os.readlink("/proc/self/fd/%d" % writes))
                child.send_signal(signal.SIGTERM)
                ended(child, signal.SIGTERM, "send: ended by a signal\n")
            finally:
                child.kill()
                os.close(reads)
                os.close(writes)


@sentence("receive that nohup starts outlives SIGHUP")
def test_receive_is_kept():
    with folders() as (there, _):
        one, other = line()
        with on_line(["nohup", *c_receive(there)], one) as child, other:
            wait_for(other, 1)
            child.send_signal(signal.SIGHUP)
            other.sendall(header(b"a", b"0"))
            wait_until(lambda: os.listdir(there) == ["a.part"], "the file is begun")
            child.send_signal(signal.SIGTERM)
            assert rest(other).endswith(CANCEL)
            ended(child, signal.SIGTERM, "receive: ended by a signal, files 0\n")
