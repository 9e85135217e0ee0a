"""The programs `sb` and `rb` of lrzsz at a connection."""

import os
import socket
import subprocess
import threading

from support.program import LIMIT


def pumped(child, end):
    """Carries what a child writes to a connection, and back, until the child has ended."""

    def back():
        try:
            while data := end.recv(65536):
                child.stdin.write(data)
                child.stdin.flush()
            child.stdin.close()
        except OSError:
            pass  # the child has ended

    threading.Thread(target=back, daemon=True).start()
    try:
        while data := os.read(child.stdout.fileno(), 65536):
            end.sendall(data)
        end.shutdown(socket.SHUT_WR)
    except OSError:
        pass  # the program has ended; its report tells why


def beside_lrzsz(words, folder, end, program):
    """Runs `sb` or `rb` on a connection, and answers how the program at its other side has
    ended."""
    child = subprocess.Popen(
        words, cwd=folder, stdin=subprocess.PIPE, stdout=subprocess.PIPE, stderr=subprocess.DEVNULL
    )
    threading.Thread(target=pumped, args=(child, end), daemon=True).start()
    try:
        ended = program.ended()
        return ended, child.wait(LIMIT)
    finally:
        child.kill()
        child.wait()
