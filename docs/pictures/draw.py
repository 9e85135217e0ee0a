#!/usr/bin/env python3
"""Draws a sequence chart (SVG) of each session whose script stands beside this file, from the trace that the program prints.

usage: draw.py PROGRAM
"""

import os
import re
import subprocess
import sys
from xml.sax.saxutils import escape

HERE = os.path.dirname(os.path.abspath(__file__))
TITLES = {
    "clean": "A clean session: one file of 200 bytes, in short blocks",
    "lost-reply": "A lost reply: the block is sent again, and the receiver drops the copy",
    "damaged-block": "A damaged block: the receiver asks again",
    "giving-up": "Giving up: the tenth delivery in a row without progress",
}

WIDTH, LEFT, RIGHT = 720, 190, 530
TOP, ROUND, SKIPPED = 96, 62, 34
INK, FAINT, GOOD, BAD, DAMAGED = "#1f2328", "#8b949e", "#1a7f37", "#cf222e", "#9a6700"
COLOURS = {"whole": INK, "lost": BAD, "damaged": DAMAGED}
LINE = re.compile(r"(\d+) > (.+) (whole|lost|damaged) < (.+) (whole|lost|damaged)")
REPLIES = {"C": "C", "ACK": "ACK", "ACK C": "ACK C", "NAK": "NAK", "CAN": "CAN CAN"}
# So many rounds that are the same are drawn as three: the first, a line, and the last.
MANY = 4


class Round:
    """A line of a trace: what was sent and how it went, both ways."""

    def __init__(self, line):
        number, self.sent, self.there, self.reply, self.back = LINE.fullmatch(line).groups()
        self.number = int(number)

    def is_like(self, other):
        return (self.sent, self.there, self.reply, self.back) == (other.sent, other.there, other.reply, other.back)


def text(x, y, words, colour=INK, size=14, anchor="middle", weight="normal"):
    return '<text x="%d" y="%d" fill="%s" font-size="%d" text-anchor="%s" font-weight="%s">%s</text>' % (x, y, colour, size, anchor, weight, escape(words))


def arrow(from_x, to_x, y, words, how):
    """A delivery from one end to the other: whole, damaged (wavy), or lost (it stops half way)."""
    colour, step = COLOURS[how], 1 if to_x > from_x else -1
    end = (from_x + to_x) // 2 + 40 * step if how == "lost" else to_x - 2 * step
    drawn = []
    if how == "damaged":
        count = (abs(end - from_x) - 12) // 16
        waves = "".join(" q %d %d %d 0" % (8 * step, -6 if at % 2 else 6, 16 * step) for at in range(count))
        drawn.append('<path d="M %d %d%s L %d %d" fill="none" stroke="%s" stroke-width="1.8"/>' % (from_x, y, waves, end, y, colour))
    else:
        dashes = ' stroke-dasharray="6 4"' if how == "lost" else ""
        drawn.append('<path d="M %d %d L %d %d" fill="none" stroke="%s" stroke-width="1.8"%s/>' % (from_x, y, end, y, colour, dashes))
    if how == "lost":
        drawn.append('<path d="M %d %d l 12 12 m 0 -12 l -12 12" fill="none" stroke="%s" stroke-width="2.4"/>' % (end - 6, y - 6, colour))
    else:
        drawn.append('<path d="M %d %d l %d -5 l 0 10 z" fill="%s"/>' % (end + step, y, -11 * step, colour))
    drawn.append(text((LEFT + RIGHT) // 2, y - (10 if how == "damaged" else 7), words if how == "whole" else "%s, %s" % (words, how), colour))
    return drawn


class Names:
    """What a frame is called. A block 0 behind the last file's EOT is the end block."""

    def __init__(self, files):
        self.files, self.begun, self.last = files, 0, None

    def of(self, sent):
        block = re.fullmatch(r"block (\d+) (\d+)", sent)
        is_again = sent == self.last
        if sent.startswith("block 0 ") and not is_again:
            self.begun += 1
        self.last = sent
        again = " again" if is_again else ""
        if not block:
            return {"eot": "EOT", "can": "CAN CAN"}[sent] + again
        if block[1] == "0":
            return "block 0%s: %s" % (again, "the end" if self.begun > self.files else "name and length")
        return "block %s%s, %s bytes" % (block[1], again, block[2])


def drawn_round(it, y, names):
    """The arrows of a round, below y."""
    found = [text(40, y + 26, str(it.number), FAINT, 13)]
    if it.sent != "-":
        found += arrow(LEFT, RIGHT, y + 22, names.of(it.sent), it.there)
    if it.reply != "-":
        found += arrow(RIGHT, LEFT, y + 50, REPLIES[it.reply], it.back)
    return found


def drawn_rounds(rounds, files):
    """The arrows of all rounds, and the height that they take."""
    names, found, y, at = Names(files), [], TOP, 0
    while at < len(rounds):
        same = 1
        while at + same < len(rounds) and rounds[at + same].is_like(rounds[at]):
            same += 1
        shown = rounds[at : at + same] if same < MANY else [rounds[at], None, rounds[at + same - 1]]
        for it in shown:
            if it is None:
                words = "\u22ee the same, rounds %d to %d" % (rounds[at].number + 1, rounds[at + same - 1].number - 1)
                found.append(text((LEFT + RIGHT) // 2, y + 22, words, FAINT, 13))
                names.of(rounds[at].sent)
                y += SKIPPED
            else:
                found += drawn_round(it, y, names)
                y += ROUND
        at += same
    return found, y


def ending(x, y, words, is_well):
    """The box with the way in which an end has ended."""
    colour = GOOD if is_well else BAD
    box = '<rect x="%d" y="%d" width="250" height="34" rx="6" fill="#ffffff" stroke="%s" stroke-width="1.8"/>' % (x - 125, y, colour)
    return [box, text(x, y + 22, words, colour)]


def chart(title, trace, files):
    lines = trace.splitlines()
    arrows, y = drawn_rounds([Round(it) for it in lines[:-2]], files)
    height = y + 74
    found = [
        '<svg xmlns="http://www.w3.org/2000/svg" viewBox="0 0 %d %d" width="%d" height="%d" font-family="Helvetica, Arial, sans-serif">' % (WIDTH, height, WIDTH, height),
        "<title>%s</title>" % escape(title),
        '<rect width="%d" height="%d" rx="8" fill="#ffffff"/>' % (WIDTH, height),
        text(WIDTH // 2, 30, title, INK, 16, weight="bold"),
        text(40, 70, "round", FAINT, 13),
    ]
    for x, words in ((LEFT, "sender"), (RIGHT, "receiver")):
        found.append(text(x, 70, words, INK, 15, weight="bold"))
        found.append('<path d="M %d %d L %d %d" stroke="%s" stroke-width="1.4"/>' % (x, 80, x, y + 16, FAINT))
    found += arrows
    for x, line in ((LEFT, lines[-2]), (RIGHT, lines[-1])):
        _, what, count, state = line.split(" ", 3)
        found += ending(x, y + 18, "%s; files %s: %s" % (state, "done" if what == "done" else "stored", count), state == "finished")
    return "\n".join([*found, "</svg>"]) + "\n"


def charts(program):
    """The file of each chart, and what has to stand in it by the traces of this program."""
    for name, title in TITLES.items():
        with open(os.path.join(HERE, name + ".script"), encoding="utf-8") as it:
            script = it.read()
        played = subprocess.run([program, "play"], input=script, capture_output=True, text=True, check=False)
        if played.returncode > 1:
            sys.exit("%s: %s" % (name, played.stderr))
        yield os.path.join(HERE, name + ".svg"), chart(title, played.stdout, script.count("file "))


def main(words):
    if len(words) != 1:
        sys.exit(__doc__)
    for file, drawn in charts(words[0]):
        with open(file, "w", encoding="utf-8") as it:
            it.write(drawn)


if __name__ == "__main__":
    main(sys.argv[1:])
