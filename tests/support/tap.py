"""A line between two programs over standard streams, which keeps what it carried."""

import contextlib
import socket
import threading


class Tap(threading.Thread):
    """Carries bytes between two ends of pairs of sockets, and keeps those of each way."""

    def __init__(self, near, far):
        super().__init__(daemon=True)
        self.there, self.back = bytearray(), bytearray()
        self.ways = [(near, far, self.there), (far, near, self.back)]

    def run(self):
        with contextlib.ExitStack() as both:
            for way in self.ways:
                one = threading.Thread(target=self.carry, args=way, daemon=True)
                one.start()
                both.callback(one.join)

    @staticmethod
    def carry(source, target, kept):
        with contextlib.suppress(OSError):
            while data := source.recv(4096):
                kept.extend(data)
                target.sendall(data)
            target.shutdown(socket.SHUT_WR)


@contextlib.contextmanager
def tapped():
    """Two ends for standard streams, and what is between them."""
    with contextlib.ExitStack() as all_of:
        ends = [all_of.enter_context(it) for _ in range(2) for it in socket.socketpair()]
        tap = Tap(ends[1], ends[2])
        tap.start()
        yield ends[0], ends[3], tap
