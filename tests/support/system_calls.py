"""In which call of the system a program waits, and how much it has read, as the system tells."""

import os
import platform

from support.skipping import Skipped
from support.waits import wait_until


# The numbers of the calls that read and write, by the processor.
READ, WRITE = {"x86_64": ("0", "1"), "aarch64": ("63", "64")}.get(platform.machine(), (None, None))


def waits_in(pid, call, path):
    """Waits until a program waits in this call, of this line."""

    def is_there():
        with open("/proc/%d/syscall" % pid, encoding="ascii") as it:
            words = it.read().split()
        if words[0] != call:
            return False
        return os.readlink("/proc/%d/fd/%d" % (pid, int(words[1], 16))) == path

    if call is None or not os.access("/proc/self/syscall", os.R_OK):
        raise Skipped("the system does not tell in which call a program waits")
    wait_until(is_there, "the program waits in call %s" % call)


def bytes_read(pid):
    """How many bytes a program has read so far."""
    with open("/proc/%d/io" % pid, encoding="ascii") as it:
        return int(it.readline().split()[1])
