"""The check's end of a plug."""

import os
import termios

from support.program import LIMIT
from support.terminal import is_ready


class End:
    """The check's end of a plug, as the plain ends of `peers` use a connection."""

    def __init__(self, it):
        self.it = it

    def recv(self, count):
        assert is_ready(self.it.inner, LIMIT), "the program wrote nothing"
        return os.read(self.it.inner, count)

    def sendall(self, data):
        while data:
            data = data[os.write(self.it.inner, data) :]

    def wants(self, reply):
        """Waits until the program has written this, behind whatever it asked meanwhile."""
        came = b""
        while not came.endswith(reply):
            came += self.recv(1)

    def hold(self):
        """What the program writes from now on waits, as where the other end has stopped it."""
        termios.tcflow(self.it.outer, termios.TCOOFF)
