#!/usr/bin/env python3
"""Records what a terminal shows of a transfer, and draws the recording (SVG), which plays as fast as
the transfer went.

`ymodem-tty` sends a file to `rb` of lrzsz here, over two joined pseudo terminals that carry bytes
as fast as a serial line of 115200 baud does. The recording is kept as it came (transfer.cast, in
the format of asciinema), and the picture is drawn from it.

usage: record.py            draws transfer.svg from transfer.cast
       record.py PROGRAM    records it anew first, with this ymodem
"""

import fcntl
import json
import os
import struct
import subprocess
import sys
import tempfile
import termios
import time
from xml.sax.saxutils import escape

HERE = os.path.dirname(os.path.abspath(__file__))
ROOT = os.path.dirname(os.path.dirname(HERE))
CAST, PICTURE = (os.path.join(HERE, "transfer" + it) for it in (".cast", ".svg"))

BAUD, BYTES = 115200, 60_000
COMMAND = "ymodem-tty --device ttyUSB0 --speed %d send firmware.bin" % BAUD
COLUMNS, ROWS = 80, 6
# Seconds that the last screen stays before the recording plays again.
STAYS = 4
CELL, LINE, LEFT, TOP = 7.8, 19, 14, 28
INK, PAPER, FAINT = "#e6edf3", "#161b22", "#8b949e"


# ---- Recording


def recorded(program):
    """What a terminal gets of the transfer: pairs of seconds since the start and text."""
    sys.path.insert(0, os.path.join(ROOT, "tests"))
    from support.cable import cable
    from support.terminal import joined

    pipe = subprocess.PIPE
    with tempfile.TemporaryDirectory(prefix="ymodem-") as top, cable(baud=BAUD) as line:
        here, there = (os.path.join(top, it) for it in ("here", "there"))
        for folder in (here, there):
            os.mkdir(folder)
        with open(os.path.join(here, "firmware.bin"), "wb") as it:
            it.write(bytes(at * at % 251 for at in range(BYTES)))
        os.symlink(line.near.path, os.path.join(here, "ttyUSB0"))
        how = {"stdin": pipe, "stdout": pipe, "stderr": subprocess.DEVNULL}
        with subprocess.Popen(["rb"], cwd=there, **how) as other:
            joined(line.far.outer, other.stdin.fileno())
            joined(other.stdout.fileno(), line.far.outer)
            events = list(shown(here, program))
            other.stdin.close()
        with open(os.path.join(there, "firmware.bin"), "rb") as it:
            if len(it.read()) != BYTES:
                sys.exit("the file did not arrive")
    return events


def shown(folder, program):
    """What the command writes to a terminal, as it comes."""
    end, other = os.openpty()
    fcntl.ioctl(other, termios.TIOCSWINSZ, struct.pack("HHHH", ROWS, COLUMNS, 0, 0))
    path = os.path.join(ROOT, "share") + ":" + os.environ["PATH"]
    environment = {**os.environ, "YMODEM": os.path.abspath(program), "PATH": path, "TERM": "xterm"}
    how = {"stdin": subprocess.DEVNULL, "stdout": other, "stderr": other}
    began = time.monotonic()
    child = subprocess.Popen(["sh", "-c", COMMAND], cwd=folder, env=environment, **how)
    os.close(other)
    try:
        while data := os.read(end, 65536):
            yield time.monotonic() - began, data.decode()
    except OSError:
        pass  # nobody has the terminal any more
    os.close(end)
    if child.wait():
        sys.exit("the command ended with status %d" % child.returncode)


def cast(events):
    """The recording, as a text of lines."""
    head = {"version": 2, "width": COLUMNS, "height": ROWS, "title": COMMAND}
    rows = [[0.0, "o", "$ %s\r\n" % COMMAND], *([round(at, 3), "o", text] for at, text in events)]
    return "".join(json.dumps(it) + "\n" for it in [head, *rows])


def events_of(text):
    return [(at, what) for at, _, what in map(json.loads, text.splitlines()[1:])]


# ---- What stands on the screen


def put(screen, text):
    """The lines of a screen, and where its cursor is, after more text."""
    lines, row, column = screen
    lines = list(lines)
    for it in text:
        if it == "\r":
            column = 0
        elif it == "\n":
            row += 1
        else:
            lines += [""] * (row + 1 - len(lines))
            old = lines[row].ljust(column)
            lines[row] = old[:column] + it + old[column + 1 :]
            column += 1
    return lines, row, column


def screens(events):
    """What the terminal shows, and from when on."""
    screen = ([], 0, 0)
    for at, text in events:
        screen = put(screen, text)
        yield at, [it.rstrip() for it in screen[0]]


def spans(events):
    """Each line that is shown: its row, its text, and from when to when; None for to the end."""
    standing, found = {}, []
    for at, lines in screens(events):
        for row, text in enumerate(lines):
            if row in standing and standing[row][1] != text:
                since, old = standing.pop(row)
                if old and since < at:
                    found.append((row, old, since, at))
            standing.setdefault(row, (at, text))
    found += [(row, text, since, None) for row, (since, text) in standing.items() if text]
    return sorted(found, key=lambda it: (it[2], it[0]))


# ---- Drawing


def drawn(text):
    """The picture of a recording."""
    events = events_of(text)
    whole = events[-1][0] + STAYS
    width = round(2 * LEFT + COLUMNS * CELL)
    height = TOP + ROWS * LINE
    rules, lines = [], []
    for number, (row, words, since, until) in enumerate(spans(events)):
        marks = ["0%{visibility:hidden}", "%.2f%%{visibility:visible}" % (100 * since / whole)]
        if until is not None:
            marks.append("%.2f%%{visibility:hidden}" % (100 * until / whole))
        rules.append("@keyframes k%d{%s}" % (number, "".join(marks if since else marks[1:])))
        last = " z" if until is None else ""
        place = 'x="%d" y="%d" style="animation-name:k%d"' % (LEFT, TOP + row * LINE, number)
        lines.append('<text class="l%s" %s>%s</text>' % (last, place, escape(words)))
    size = 'viewBox="0 0 %d %d" width="%d" height="%d"' % (width, height, width, height)
    style = [
        "text{font:13px Menlo,Consolas,'DejaVu Sans Mono',monospace;fill:%s;white-space:pre}" % INK,
        ".l{visibility:hidden;animation:%.3fs step-end infinite}" % whole,
        "@media (prefers-reduced-motion:reduce){.l{animation:none}.z{visibility:visible}}",
    ]
    box = '<rect width="%d" height="%d" rx="8" fill="%s" stroke="%s"/>'
    return "\n".join(
        [
            '<svg xmlns="http://www.w3.org/2000/svg" %s>' % size,
            "<title>%s</title>" % escape("A recording of: " + COMMAND),
            "<style>",
            *style,
            *rules,
            "</style>",
            box % (width, height, PAPER, FAINT),
            *lines,
            "</svg>\n",
        ]
    )


def written(path, text):
    with open(path, "w", encoding="utf-8") as it:
        it.write(text)


def main(words):
    if len(words) > 1:
        sys.exit(__doc__)
    if words:
        written(CAST, cast(recorded(words[0])))
    with open(CAST, encoding="utf-8") as it:
        written(PICTURE, drawn(it.read()))


if __name__ == "__main__":
    main(sys.argv[1:])
