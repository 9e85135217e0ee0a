"""`send` and `receive`, `ymodem sb` and `ymodem rb` on terminals, and lrzsz's `sb` and `rb`, over
lines with delay, jitter, echo, noise, late starts and stalls, in real time.

In every session what the ends say has to be so: each file that a sender counts is stored, a
receiver counts what is stored, and nobody says that it finished while a file is missing. Where the
counts allow, the batch has to be there whole.

The short form has 3 seeds a row of noise, and the long one (-m long) has every row, and 20. The
environment variable SEEDS names another number, and AT_ONCE how many sessions there are at once.
What is printed of a row, which -rP shows, is its sessions, whole ones, false reports, the median
and longest seconds of the whole ones, and how many were made again.
"""

import asyncio
import os
import random
import statistics
import threading
import time

import pytest
from support.cases import case, cases
from support.pulse import Certain, beating
from support.sessions import LRZSZ_SENDERS, SOCKETS, TERMINALS, Line, Shape, session
from support.skipping import needs

SIZES = (("a", 1), ("b", 300), ("c", 3000), ("d", 9000), ("e", 20000))
FILES = [(name, random.Random(name).randbytes(size)) for name, size in SIZES]
FEW = [("a", b""), ("b", random.Random(5).randbytes(300)), ("c", random.Random(6).randbytes(1500))]

PAIRS = (("send", "receive"), ("send", "rb"), ("sb", "receive"), ("sb", "rb"))
PAIRS_ON_TERMINALS = (TERMINALS, ("ymodem sb", "rb"), ("sb", "ymodem rb"))
# Blocks of both lengths, and both confirmations; lrzsz's ends have no such choice.
FLAGS = (
    ("", ((), ())),
    (", --short", (("--short",), ())),
    (", --single", ((), ("--single",))),
)
# So many writes a sender makes of these few files.
WRITES = 18


class Row:
    """Sessions of one kind, of these ends. `wants` says whether each of them has to be whole; else
    only that nothing false is said."""

    def __init__(self, name, make, ends=SOCKETS, wants=True, seeds=1):
        self.name = name + (", over terminals" if ends == TERMINALS else "")
        self.make, self.wants, self.seeds = make, wants, seeds
        # How many sessions were made again.
        self.again = 0
        self.needs_lrzsz = "rb" in ends or ends[0] in LRZSZ_SENDERS
        self.is_of_send = ends[0] == "send"

    def is_right(self, it):
        return not it.fault and (it.is_whole or not self.wants)


def pair_name(ends):
    return "%s to %s" % ends


def beside(ends):
    """What a row's name has where one of its ends is lrzsz's."""
    return "" if ends in (SOCKETS, TERMINALS) else ", " + pair_name(ends)


def delay_rows(ends, steps, jitter, wants):
    for delay in steps:
        for how, flags in FLAGS if ends in (SOCKETS, TERMINALS) else FLAGS[:1]:

            def make(seed, delay=delay, flags=flags):
                line = Line(Shape(delay, jitter), seed=seed)
                return session(FEW, line, ends, flags)

            name = "delay %.2f s each way%s" % (delay, jitter and ", jitter %g s" % jitter or "")
            yield Row(name + how + beside(ends), make, ends, wants)


def late_rows(ends, seconds, delays):
    for delay in delays:
        for late in seconds:
            for who in ("sender", "receiver"):

                def make(seed, delay=delay, late=late, who=who):
                    return session(FEW, Line(Shape(delay), seed=seed), ends, late=(who, late))

                # a receiver gives up after 30 s alone, a sender after 100; `sb` after less
                wants = who == "receiver" and late < 60 and ends[0] != "sb" or late <= 21
                name = "the %s %d s late, delay %g s" % (who, late, delay)
                yield Row(name + beside(ends), make, ends, wants)


def stall_rows(ends, seconds, delays, places, is_whole=False):
    """Of two ends that are ours each has to be whole where the counts allow, and of others where it
    is said so."""
    for delay in delays:
        for long in seconds:
            for who in ("sender", "receiver"):
                for at in places:

                    def make(seed, delay=delay, stall=(who, at, long)):
                        return session(FEW, Line(Shape(delay), seed=seed, stall=stall), ends)

                    name = "the %s stalls %d s at its write %d, delay %g s" % (who, long, at, delay)
                    is_ours = ends in (SOCKETS, TERMINALS) or is_whole
                    wants = is_ours and long <= 21
                    yield Row(name + beside(ends), make, ends, wants)


def echo_rows(both, sender_with_rb):
    for ends, sides in ((both, ("there", "back", "there back")), (sender_with_rb, ("there",))):
        for echo in sides:
            for delay in (0, 0.3):

                def make(seed, ends=ends, echo=echo, delay=delay):
                    return session(FEW, Line(Shape(delay), seed=seed, echo=echo), ends)

                # a receiver whose own C comes back to it takes it for noise; see docs/serial.md
                name = "echo (%s), %s, delay %g s" % (echo, pair_name(ends), delay)
                yield Row(name, make, ends, "there" == echo)
    for cut in (2, 3, 40):

        def make(seed, cut=cut):
            return session(FEW, Line(seed=seed, echo="there", cut=cut), both)

        yield Row("an echo of the first %d bytes" % cut, make, both, False)


NOISE = (
    ("lost, 0.02%", dict(lost=0.0002)),
    ("lost, 0.05%", dict(lost=0.0005)),
    ("lost, 0.1%", dict(lost=0.001)),
    ("flipped, 0.01%", dict(flipped=0.0001)),
    ("flipped, 0.05%", dict(flipped=0.0005)),
    ("doubled, 0.05%", dict(doubled=0.0005)),
    ("all three, 0.03%", dict(lost=0.0003, flipped=0.0003, doubled=0.0003)),
)


# So exact are the seconds of a session on an idle machine, and such a share of them may be more
# where a machine has all it can do.
EXACT, NEAR = 0.05, 0.2
SHORT_SEEDS = 3
# Senders with blocks of one length, side by side: long ones, and short ones.
ALIKE = (
    ("long blocks", (), "sb -k"),
    ("short blocks", ("--short",), "sb"),
)


def rows_alike(how, flags, other, seeds):
    """`sb` to `rb`, `send` to `receive` and to `rb`, and `sb` to `rb` once more, across the same
    noise."""
    theirs = (other, "rb")
    for ends in (theirs, SOCKETS, ("send", "rb"), theirs):

        def make(seed, ends=ends):
            line = Line(Shape(rate=11520, **how), seed=seed)
            return session(FILES, line, ends, (flags if ends[0] == "send" else (), ()))

        yield Row(pair_name(ends), make, ends, False, seeds)


def noise_rows(pairs, seeds):
    for name, how in NOISE:
        for ends in pairs:

            def make(seed, how=how, ends=ends):
                return session(FILES, Line(Shape(rate=11520, **how), seed=seed), ends)

            yield Row("noise: %s, %s" % (name, pair_name(ends)), make, ends, False, seeds)


def steps(first, last, step=0.25):
    return [first + step * at for at in range(int((last - first) / step) + 1)]


def long_rows(seeds):
    rows = []
    for ends, pairs in ((SOCKETS, PAIRS), (TERMINALS, PAIRS_ON_TERMINALS)):
        rows += [
            *delay_rows(ends, steps(0, 4), 0, True),
            *delay_rows(ends, steps(0, 4), 1, True),
            *delay_rows(ends, steps(4.25, 12), 0, False),
            *delay_rows(ends, steps(4.25, 12, 1), 1, False),
            *late_rows(ends, (0, 1, 3, 5, 10, 20, 29, 45, 60), (0, 0.5, 2)),
            *stall_rows(ends, (1, 3, 6, 9, 12, 21, 30), (0, 0.5, 1, 2), range(1, WRITES + 1)),
            *echo_rows(ends, pairs[1]),
            *noise_rows(pairs, seeds),
        ]
    for ends in PAIRS[1:3]:
        rows += [
            *delay_rows(ends, steps(0, 4), 0, True),
            *delay_rows(ends, steps(0, 4), 1, True),
            *delay_rows(ends, steps(4.25, 12), 0, False),
            *delay_rows(ends, steps(4.25, 12, 1), 1, False),
            *late_rows(ends, (0, 1, 3, 5, 10, 20, 29, 45, 60), (0, 0.5, 2)),
            *stall_rows(ends, (1, 3, 6, 9, 12, 21, 30), (0, 0.5, 1, 2), range(1, WRITES + 1)),
        ]
    return rows


def short_rows(seeds):
    return [
        *delay_rows(SOCKETS, (0.5, 1.5, 2, 3), 0, True),
        *delay_rows(SOCKETS, (1.5,), 1, True),
        *late_rows(SOCKETS, (5, 20), (0.5,)),
        *stall_rows(SOCKETS, (6, 12), (0, 0.5), (1, 2, 3, 5)),
        # an answer to a copy of block 0 comes when block 1 is out
        *stall_rows(SOCKETS, (9,), (1,), (1, 2)),
        *stall_rows(SOCKETS, (21,), (0, 1), (2,)),
        *stall_rows(SOCKETS, (9,), (2,), (15, 16)),
        # `rb` drops what comes just when copies do on such a line, if all go at once
        *stall_rows(("send", "rb"), (1, 6), (2,), (6, 7), is_whole=True),
        # its asks cross what they ask for
        *delay_rows(("send", "rb"), (3.25,), 1, True),
        # it drops what comes in the second before it asks, so one answer is that of the next copy
        *delay_rows(("send", "rb"), (6.5,), 0, True),
        *echo_rows(SOCKETS, PAIRS[1]),
        *delay_rows(TERMINALS, (0.5, 2), 0, True),
        *delay_rows(TERMINALS, (1.5,), 1, True),
        *late_rows(TERMINALS, (5, 20), (0.5,)),
        *stall_rows(TERMINALS, (6, 12), (0.5,), (1, 2, 5)),
        *echo_rows(TERMINALS, PAIRS_ON_TERMINALS[1]),
        *[
            it
            for it in noise_rows(PAIRS + PAIRS_ON_TERMINALS, seeds)
            if "flipped, 0.05%" in it.name
        ],
    ]


def running():
    """A loop for all sessions, in a thread of its own: they mostly wait."""
    loop = asyncio.new_event_loop()
    threading.Thread(target=loop.run_forever, daemon=True).start()
    return loop


LOOP = running()
# So many seeds of each row are made at once, where seconds are compared.
TOGETHER = 20
# So many sessions go on at once. Where seconds are compared, fewer are better: the lines of 150
# noisy ones take more than four processors.
AT_ONCE = asyncio.Semaphore(int(os.environ.get("AT_ONCE", "150")))


async def made(row, seed):
    """A session of a row, by its seed. One that is not whole and has to be is made again where this
    machine did not keep time: the line stood still then, at any place. It is counted, and what is
    printed tells how many. A false report is excused by nothing."""
    async with AT_ONCE:
        first = time.monotonic()
        while True:
            began = time.monotonic()
            it = await row.make(seed)
            is_settled = row.is_right(it) or it.fault
            if is_settled or not beating().shows_nothing(began, first):
                return seed, it
            row.again += 1
            await asyncio.to_thread(beating().wait_for_calm)


async def all_made(row, seeds):
    return await asyncio.gather(*(made(row, seed) for seed in seeds))


def in_turn(rows, seeds):
    """The place of a row and a seed, for all of both: at each seed another row is the first. The
    programs of many sessions are started one behind another, which takes a second."""
    for seed in seeds:
        yield from (((seed + at) % len(rows), seed) for at in range(len(rows)))


async def all_rows_made(rows):
    """Rows to be compared: the same few seeds of each at once, so that none has a busier machine."""
    told = [[] for _ in rows]
    seeds = range(rows[0].seeds)
    for first in seeds[::TOGETHER]:
        order = list(in_turn(rows, seeds[first : first + TOGETHER]))
        came = await asyncio.gather(*(made(rows[at], seed) for at, seed in order))
        for (at, _), it in zip(order, came):
            told[at].append(it)
    return told


def is_as_it_has_to_be(row):
    """No report is false, and each session is whole that has to be."""
    if row.needs_lrzsz:
        needs("sb", "rb")
    came = asyncio.run_coroutine_threadsafe(all_made(row, range(row.seeds)), LOOP).result()
    whole = sorted(it.seconds for _, it in came if it.is_whole)
    false = [(seed, it) for seed, it in came if it.fault]
    lacking = [(seed, it) for seed, it in came if row.wants and not it.is_whole and not it.fault]
    median = "none whole"
    if whole:
        median = "median %.1f s, longest %.1f s" % (statistics.median(whole), whole[-1])
    counts = (len(came), len(whole), len(false), median)
    why = "%d sessions, %d whole, %d false; %s" % counts
    why += ", %d made again" % row.again if row.again else ""
    for seed, it in false + lacking:
        why += "\n         seed %d: %s (%s)" % (seed, it.fault or "not whole", it.told)
    print("%s: %s" % (row.name, why))
    if false:
        raise Certain(why)
    assert not lacking, why


@cases(*(case(it.name, it) for it in short_rows(int(os.environ.get("SEEDS", "3")))))
def test_of_short_form(row):
    is_as_it_has_to_be(row)


@pytest.mark.long
@cases(*(case(it.name, it) for it in long_rows(int(os.environ.get("SEEDS", "20")))))
def test_of_long_form(row):
    is_as_it_has_to_be(row)


class Beside:
    """What sessions of `send` came to beside those of lrzsz's own two, which are the first row, at
    the seeds at which all are whole: how much more they take by the median of the differences, and
    the share of that. What is told has the same of `sb` beside itself: so much is luck."""

    def __init__(self, name, blocks, rows):
        told = asyncio.run_coroutine_threadsafe(all_rows_made(rows), LOOP).result()
        whole = [{seed: it.seconds for seed, it in came if it.is_whole} for came in told]
        shared = set.intersection(*map(set, whole))
        theirs = [whole[0][it] for it in shared]
        middle = statistics.median(theirs)
        self.more, lines = 0.0, []
        for row, came, seconds in zip(rows, told, whole):
            false = sum(bool(it.fault) for _, it in came)
            here = [seconds[it] for it in shared]
            median = statistics.median(here)
            more = statistics.median(a - b for a, b in zip(here, theirs))
            if row.is_of_send:
                self.more = max(self.more, more)
            counts = (row.name, len(came), len(seconds), false, median, more, median - middle)
            line = "%s: %d sessions, %d whole, %d false, median %.2f s, %+.3f s, of medians %+.2f s"
            lines.append(line % counts)
            if false:
                raise Certain(lines[-1])
        self.share = self.more / middle
        which = (name, blocks, len(shared))
        self.told = "%s, %s: medians of %d seeds; " % which + "; ".join(lines)
        print(self.told)


@pytest.mark.long
@cases(*(case("%s, %s" % (name, it[0]), name, how, *it) for name, how in NOISE for it in ALIKE))
def test_as_quick_as_sb_across_the_same_noise(name, how, blocks, flags, other):
    """Neither `send` to `receive` nor `send` to `rb` takes longer than lrzsz's own two, by the
    median of what each takes more at the seeds at which all are whole. `sb` to `rb` is run twice:
    what it differs from itself is what such a median can tell apart.

    What is damaged of a file is the same for each sender, and for each copy. The blocks at the end
    of a file are not: 952 bytes are one long block to `sb -k`, and eight short ones to `send`. So
    sessions of one seed differ by a second or two now and then, up and down."""
    needs("sb", "rb")
    rows = list(rows_alike(how, flags, other, int(os.environ.get("SEEDS", "20"))))
    beside = Beside(name, blocks, rows)
    assert beside.more <= EXACT, beside.told


@cases(*(case("flipped, 0.05%%, %s" % it[0], *it) for it in ALIKE))
def test_nearly_as_quick_as_sb(blocks, flags, other):
    """The same at a few seeds, where other work may make any of them slower."""
    needs("sb", "rb")
    rows = list(rows_alike(dict(NOISE)["flipped, 0.05%"], flags, other, SHORT_SEEDS))
    beside = Beside("flipped, 0.05%", blocks, rows)
    assert beside.share <= NEAR, beside.told
