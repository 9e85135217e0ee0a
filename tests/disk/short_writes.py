"""Runs a program whose writes to files take half of what they are given, and say so: its words are
those of this script, and its status is the program's.

The system may do that at any time, and hardly ever does. It needs Linux on x86-64, where the count
of bytes is in a register that a tracer can set.
"""

import ctypes
import os
import signal
import sys

# The status where nothing can be traced.
CANNOT = 125

TRACE_ME, PEEK, POKE, GO_ON, SET_OPTIONS = 0, 3, 6, 24, 0x4200
TELL_CALLS, KILL_WITH_ME = 1, 0x100000
AT_CALL = signal.SIGTRAP | 0x80

# Where the registers stand: the first argument, the third, and the number of the call.
FIRST, THIRD, CALL = 14 * 8, 12 * 8, 15 * 8
WRITE = 1


def ptrace(request, child, where=0, what=0):
    call = ctypes.CDLL(None, use_errno=True).ptrace
    call.restype = ctypes.c_long
    return call(
        ctypes.c_long(request), ctypes.c_long(child), ctypes.c_void_p(where), ctypes.c_void_p(what)
    )


def halve(child):
    count = ptrace(PEEK, child, THIRD)
    if ptrace(PEEK, child, CALL) == WRITE and ptrace(PEEK, child, FIRST) > 2 and count > 1:
        ptrace(POKE, child, THIRD, count // 2)


def traced(child):
    """Follows the program to its end, and answers its status."""
    _, status = os.waitpid(child, 0)
    ptrace(SET_OPTIONS, child, 0, TELL_CALLS | KILL_WITH_ME)
    given, is_entering = 0, True
    while os.WIFSTOPPED(status):
        ptrace(GO_ON, child, 0, given)
        _, status = os.waitpid(child, 0)
        stop = os.WSTOPSIG(status) if os.WIFSTOPPED(status) else 0
        if stop == AT_CALL:
            if is_entering:
                halve(child)
            is_entering = not is_entering
        given = 0 if stop in (AT_CALL, signal.SIGTRAP) else stop
    return os.waitstatus_to_exitcode(status)


def main(words):
    child = os.fork()
    if not child:
        if ptrace(TRACE_ME, 0):
            os._exit(CANNOT)
        os.kill(os.getpid(), signal.SIGSTOP)
        os.execvp(words[0], words)
    return traced(child)


if __name__ == "__main__":
    sys.exit(main(sys.argv[1:]))
