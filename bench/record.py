#!/usr/bin/env python3
"""Measures what `--record` costs: a file from `ymodem send` to `ymodem receive`, with no record, and
with one at the sender, at the receiver, or at both.

It goes over a connection on loopback, as fast as both ends can, and through a relay that carries as
many bytes a second each way as a serial line of 3,000,000 baud. All ways are run in turns. Each
figure is the median of its turns, in seconds, from the moment at which the receiver runs to the end
of both; behind it stands its ratio to the one with no record. The receiver asks at once, and leaves
the file to the system. Figures, not promises.

usage: bench/record.py [PROGRAM] [TURNS]
"""

import contextlib
import os
import select
import socket
import statistics
import subprocess
import sys
import tempfile
import threading
import time

HERE = os.path.dirname(os.path.abspath(__file__))
DEFAULT = os.environ.get("YMODEM", os.path.join(HERE, "..", "crates", "ymodem", "out", "ymodem"))
PROGRAM = os.path.abspath(sys.argv[1] if len(sys.argv) > 1 else DEFAULT)
TURNS = int(sys.argv[2]) if len(sys.argv) > 2 else 7
NAME = "file"
# The bytes of the file over each line, and how many a second it carries.
FAST, SLOW, PACE = 64 << 20, 2 << 20, 300_000
WAYS = {"no record": (), "send": ("send",), "receive": ("receive",), "both": ("send", "receive")}


def free_port():
    with socket.create_server(("127.0.0.1", 0)) as it:
        return it.getsockname()[1]


def called(port):
    while True:
        with contextlib.suppress(ConnectionRefusedError):
            end = socket.create_connection(("127.0.0.1", port))
            end.setsockopt(socket.IPPROTO_TCP, socket.TCP_NODELAY, 1)
            return end
        time.sleep(0.01)


def carry(one, other):
    """Carries what comes, by the pace, until one end has gone."""
    ways = {one: other, other: one}
    free = dict.fromkeys(ways, time.monotonic())
    with contextlib.suppress(OSError):
        while True:
            for end in select.select([one, other], [], [])[0]:
                data = end.recv(65536)
                if not data:
                    return
                free[end] = max(free[end], time.monotonic()) + len(data) / PACE
                time.sleep(max(0, free[end] - time.monotonic()))
                ways[end].sendall(data)


@contextlib.contextmanager
def paced(port):
    """A port that stands for this one, through the relay."""
    with socket.create_server(("127.0.0.1", 0)) as listener:

        def work():
            one, _ = listener.accept()
            one.setsockopt(socket.IPPROTO_TCP, socket.TCP_NODELAY, 1)
            with one, called(port) as other:
                carry(one, other)

        threading.Thread(target=work, daemon=True).start()
        yield listener.getsockname()[1]


@contextlib.contextmanager
def direct(port):
    yield port


def session(top, size, line, recorded):
    """The seconds of a session in which these ends record."""
    path, folder, port = os.path.join(top, NAME), os.path.join(top, "there"), free_port()
    words = {
        "receive": ["receive", "--eager", "--no-sync", "--port", str(port), folder],
        "send": ["send", "--port", "%d", path],
    }
    for end in recorded:
        words[end][1:1] = ["--record", os.path.join(top, end + ".record")]
    quiet = {"stdin": subprocess.DEVNULL, "stdout": subprocess.DEVNULL}
    began = time.monotonic()
    receive = subprocess.Popen([PROGRAM, *words["receive"]], **quiet)
    # `send` calls once, so the receiver has to listen by then
    while subprocess.run(["ss", "-Hltn", "sport = :%d" % port], capture_output=True).stdout == b"":
        time.sleep(0.005)
    with line(port) as near:
        send = [it % near if it == "%d" else it for it in words["send"]]
        sender = subprocess.Popen([PROGRAM, *send], **quiet)
        if sender.wait() or receive.wait():
            sys.exit("a session failed")
    took = time.monotonic() - began
    stored = os.path.join(folder, NAME)
    if os.path.getsize(stored) != size:
        sys.exit("the stored file differs")
    os.remove(stored)
    return took


def measure(top, size, line):
    with open(os.path.join(top, NAME), "wb") as it:
        it.write(os.urandom(size))
    took = {name: [] for name in WAYS}
    for _ in range(TURNS):
        for name, recorded in WAYS.items():
            os.sync()
            took[name].append(session(top, size, line, recorded))
    return took


def main():
    lines = {"loopback, 64 MiB": (FAST, direct), "3,000,000 baud, 2 MiB": (SLOW, paced)}
    with tempfile.TemporaryDirectory(prefix="ymodem-bench-") as top:
        os.mkdir(os.path.join(top, "there"))
        for title, (size, line) in lines.items():
            took = measure(top, size, line)
            plain = statistics.median(took["no record"])
            for name, seconds in took.items():
                median = statistics.median(seconds)
                each = ", ".join("%.2f" % it for it in seconds)
                print("%-22s %-10s %6.3f s %6.3f  (%s)" % (title, name, median, median / plain, each))


main()
