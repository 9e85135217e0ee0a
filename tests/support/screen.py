"""A terminal of some width, as tmux keeps it, and what stands on its screen."""

import contextlib
import os
import shlex
import subprocess
import tempfile
import time

from support.program import LIMIT
from support.skipping import needs


LINES = 24


class Screen:
    """A terminal in which one command of a shell runs, in a server of tmux of its own. It has no
    COLUMNS in its environment, as under a shell."""

    def __init__(self, folder, columns, command, **environment):
        self.tmux = ["tmux", "-f", "/dev/null", "-S", os.path.join(folder, "tmux")]
        kept = {name: text for name, text in os.environ.items() if name not in ("COLUMNS", "TMUX")}
        self.environment = {**kept, "TERM": "xterm", "LC_ALL": "C.UTF-8", **environment}
        # The cursor stays where the command leaves it, until this is stopped. Ctrl-C ends the
        # command alone.
        command = 'trap : INT; %s; echo "[ended $?]"; exec sleep %d' % (command, LIMIT)
        self.call("new-session", "-d", "-x", str(columns), "-y", str(LINES), command)

    def call(self, *words):
        how = {"env": self.environment, "capture_output": True, "text": True, "check": False}
        ran = subprocess.run([*self.tmux, *words], timeout=LIMIT, **how)
        assert not ran.returncode, "tmux %s: %s" % (words[0], ran.stderr)
        return ran.stdout

    def lines(self, *of):
        """Its lines, without those below the last one that has something."""
        return self.call("capture-pane", "-p", *of).rstrip("\n").split("\n")

    def all_lines(self):
        """The same with those that were moved out at the top."""
        return self.lines("-S", "-")

    def sees(self, found):
        """Waits until this is true of its lines, and gives them."""
        until = time.monotonic() + LIMIT
        while not found(lines := self.lines()):
            assert time.monotonic() <= until, "the screen was %r" % lines
            time.sleep(0.02)
        return lines

    def ended(self):
        """Its lines, once the command has ended."""
        return self.sees(lambda lines: any(it.startswith("[ended ") for it in lines))

    def type(self, *keys):
        self.call("send-keys", *keys)

    def stop(self):
        with contextlib.suppress(AssertionError):
            self.call("kill-server")


@contextlib.contextmanager
def screen(columns, *words, **environment):
    """A command on a terminal of so many columns."""
    needs("tmux")
    with tempfile.TemporaryDirectory(prefix="ymodem-") as folder:
        it = Screen(folder, columns, shlex.join(map(str, words)), **environment)
        try:
            yield it
        finally:
            it.stop()
