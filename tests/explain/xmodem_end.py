"""Sends a file by XMODEM over standard input and output, or receives one, as python3-xmodem does
it.

usage: xmodem_end.py send FILE | receive FILE
"""

import os
import select
import sys

from xmodem import XMODEM


def get(size, timeout=1):
    if not select.select([0], [], [], timeout)[0]:
        return None
    return os.read(0, size) or None


def put(data, timeout=1):
    return os.write(1, data)


def main(act, path):
    end = XMODEM(get, put)
    with open(path, "rb" if act == "send" else "wb") as it:
        return end.send(it) if act == "send" else end.recv(it, crc_mode=0)


if __name__ == "__main__":
    main(*sys.argv[1:])
