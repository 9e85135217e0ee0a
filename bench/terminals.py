#!/usr/bin/env python3
"""Measures a file of 20 MB from `ymodem sb` to `ymodem rb` over two pseudo terminals, and from
`ymodem send` to `ymodem receive` over two connections, each through the same relay.

The relay is a process of its own, which copies what it reads. Beside each stands a plain stop and
wait of the same bytes through the same relay (bench/stopwait.c), with no file and no protocol: what
the terminals and the connections take by themselves. And the terminals are also tried as a program
has to use them that knows connections alone: `send` and `receive`, each with a `socat` that carries
its connection to its terminal. All five are run in turns, and each figure is the median of its
turns, in seconds, from the moment at which both ends run to the end of both. The receivers ask at
once, and leave the file to the system. Figures, not promises.

usage: bench/terminals.py [PROGRAM] [TURNS]
"""

import contextlib
import os
import select
import signal
import socket
import statistics
import subprocess
import sys
import tempfile
import termios
import time
import tty

HERE = os.path.dirname(os.path.abspath(__file__))
DEFAULT = os.environ.get("YMODEM", os.path.join(HERE, "..", "crates", "ymodem", "out", "ymodem"))
PROGRAM = os.path.abspath(sys.argv[1] if len(sys.argv) > 1 else DEFAULT)
TURNS = int(sys.argv[2]) if len(sys.argv) > 2 else 5
SIZE = 20_000_000
BLOCKS = SIZE // 1024
NAME = "file"


def copy(one, other):
    """Copies between two descriptors, both ways, until one has ended."""
    ways = {one: other, other: one}
    with contextlib.suppress(OSError):
        while True:
            for end in select.select([one, other], [], [])[0]:
                data = os.read(end, 65536)
                if not data:
                    return
                while data:
                    data = data[os.write(ways[end], data) :]


@contextlib.contextmanager
def relay(one, other):
    """The relay between these two descriptors."""
    child = os.fork()
    if child == 0:
        copy(one, other)
        os._exit(0)
    try:
        yield
    finally:
        os.kill(child, signal.SIGKILL)
        os.waitpid(child, 0)


def ticking(end):
    """Sets a terminal as `sb` and `rb` need it."""
    kept = termios.tcgetattr(end)
    kept[2] |= termios.CLOCAL
    kept[6][termios.VMIN], kept[6][termios.VTIME] = 0, 1
    termios.tcsetattr(end, termios.TCSANOW, kept)


@contextlib.contextmanager
def terminals():
    """Two terminals with the relay between them: their ends."""
    pairs = [os.openpty() for _ in range(2)]
    for _, end in pairs:
        tty.setraw(end)
    with relay(*(inner for inner, _ in pairs)):
        yield [end for _, end in pairs]
    for pair in pairs:
        for end in pair:
            os.close(end)


def connection():
    """Both ends of a connection on loopback."""
    with socket.create_server(("127.0.0.1", 0)) as listener:
        one = socket.create_connection(listener.getsockname())
        other, _ = listener.accept()
    at_once(one, other)
    return one, other


def at_once(*ends):
    for end in ends:
        end.setsockopt(socket.IPPROTO_TCP, socket.TCP_NODELAY, 1)


def ended(children):
    """Waits for both ends, which have to end well."""
    for child in children:
        if child.wait():
            sys.exit("%s failed" % child.args)


def over_terminals(path, folder):
    with terminals() as ends:
        for end in ends:
            ticking(end)
        near, far = (os.ttyname(end) for end in ends)
        began = time.monotonic()
        receive = started([PROGRAM, "rb", "--no-sync", "--line", far, folder])
        ended([receive, started([PROGRAM, "sb", "--line", near, path])])
        return time.monotonic() - began


def over_connections(path, folder):
    with socket.create_server(("127.0.0.1", 0)) as listener, socket.socket() as held:
        held.setsockopt(socket.SOL_SOCKET, socket.SO_REUSEADDR, 1)
        held.bind(("127.0.0.1", 0))
        port = held.getsockname()[1]
        receive = started([PROGRAM, "receive", "--eager", "--no-sync", "--port", str(port), folder])
        sender = started([PROGRAM, "send", "--port", str(listener.getsockname()[1]), path])
        one, _ = listener.accept()
        other = called(port)
        at_once(one, other)
        began = time.monotonic()
        with relay(one.fileno(), other.fileno()):
            one.close()
            other.close()
            ended([sender, receive])
        return time.monotonic() - began


def called(port):
    while True:
        with contextlib.suppress(ConnectionRefusedError):
            return socket.create_connection(("127.0.0.1", port))
        time.sleep(0.01)


def over_carried_connections(path, folder):
    """`send` and `receive`, whose connections two `socat` carry to the terminals."""
    with terminals() as ends, socket.socket() as held, socket.socket() as other:
        for it in (held, other):
            it.setsockopt(socket.SOL_SOCKET, socket.SO_REUSEADDR, 1)
            it.bind(("127.0.0.1", 0))
        near, far = ("file:%s,raw,echo=0" % os.ttyname(end) for end in ends)
        to_send, to_receive = (it.getsockname()[1] for it in (held, other))
        calls = "TCP:127.0.0.1:%d,nodelay,retry=100,interval=0.02" % to_receive
        listens = "TCP-L:%d,bind=127.0.0.1,reuseaddr,nodelay" % to_send
        began = time.monotonic()
        receive = started([PROGRAM, "receive", "--eager", "--no-sync", "--port", str(to_receive), folder])
        carriers = [started(["socat", listens, near]), started(["socat", calls, far])]
        ended([receive, started([PROGRAM, "send", "--port", str(to_send), path])])
        took = time.monotonic() - began
        for it in carriers:
            it.kill()
            it.wait()
        return took


def plain(stopwait, near, far):
    """The stop and wait between these descriptors."""
    began = time.monotonic()
    ends = (("receive", far), ("send", near))
    ended([started([stopwait, word, str(BLOCKS)], stdin=it, stdout=it) for word, it in ends])
    return time.monotonic() - began


def plain_over_terminals(stopwait):
    with terminals() as ends:
        return plain(stopwait, *ends)


def plain_over_connections(stopwait):
    (near, one), (other, far) = connection(), connection()
    with near, one, other, far, relay(one.fileno(), other.fileno()):
        return plain(stopwait, near, far)


def started(words, **how):
    how = {"stdin": subprocess.DEVNULL, "stdout": subprocess.DEVNULL} | how
    return subprocess.Popen(words, **how)


def turn(path, folder, stopwait):
    """The seconds of each, by name."""
    took = {}
    ways = {
        "terminals": over_terminals,
        "terminals, by socat": over_carried_connections,
        "connections": over_connections,
    }
    for name, run in ways.items():
        took[name] = run(path, folder)
        stored = os.path.join(folder, NAME)
        with open(path, "rb") as one, open(stored, "rb") as other:
            if one.read() != other.read():
                sys.exit("the stored file differs")
        os.remove(stored)
    took["plain, terminals"] = plain_over_terminals(stopwait)
    took["plain, connections"] = plain_over_connections(stopwait)
    return took


def main():
    with tempfile.TemporaryDirectory(prefix="ymodem-bench-") as top:
        stopwait = os.path.join(top, "stopwait")
        source = os.path.join(HERE, "stopwait.c")
        subprocess.run(["cc", "-O2", "-o", stopwait, source], check=True)
        path, folder = os.path.join(top, NAME), os.path.join(top, "there")
        os.mkdir(folder)
        with open(path, "wb") as it:
            it.write(os.urandom(SIZE))
        turns = [turn(path, folder, stopwait) for _ in range(TURNS)]
    median = {name: statistics.median(it[name] for it in turns) for name in turns[0]}
    for name, seconds in median.items():
        each = ", ".join("%.2f" % it[name] for it in turns)
        print("%-20s %6.2f s  (%s)" % (name, seconds, each))
    for kind in ("", "plain, "):
        ratio = median[kind + "terminals"] / median[kind + "connections"]
        print("%sterminals to connections: %.2f" % (kind, ratio))
    ratio = median["terminals"] / median["terminals, by socat"]
    print("terminals to terminals by socat: %.2f" % ratio)


main()
