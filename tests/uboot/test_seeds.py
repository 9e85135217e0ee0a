"""U-Boot on its boards, over lines that flip bits: `ymodem send` beside lrzsz's `sb`, over the same
seeds."""

import contextlib
import os
import random
import shutil
import socket
import statistics
import subprocess
import tempfile
import time
from concurrent.futures import ThreadPoolExecutor

import pytest
from support.cases import case, cases
from support.flips import BOTH, FRAMES, REPLIES, Flips, recovers
from support.one_end import accepted, relayed, sending
from support.program import LIMIT, connected, write_files
from support.relay import at_once
from support.uboot_boards import BOARDS


SIZE = 20_000


# ---- Seeds


class Session:
    """How one came out: its seconds, those from its first frame on, whether the file is there, and
    whether its end said what is not so."""

    def __init__(self, seconds, since_first, is_whole, is_false, told):
        self.seconds, self.since_first, self.told = seconds, since_first, told
        self.is_whole, self.is_false = is_whole, is_false


@contextlib.contextmanager
def sb_sending(words, paths, line):
    """`sb` of lrzsz, as `sending` has `send`: how it ends is asked of it."""
    with socket.create_server(("127.0.0.1", 0)) as listener:
        listener.settimeout(LIMIT)
        with relayed(listener.getsockname()[1], line) as port, connected(port) as end:
            at_once(end)
            end.settimeout(None)
            how = {"stdin": end, "stdout": end, "stderr": subprocess.DEVNULL}
            child = subprocess.Popen([*words, "-q", *paths], **how)
            end.close()
            try:
                yield child, lambda: accepted(listener)
            finally:
                child.kill()
                child.wait()


def by_send(*words):
    """Whether `ymodem send` says that it has finished, and what it tells."""

    def sends(paths, line, port):
        with sending(paths, line, words) as (sender, called):
            port.carry(called())
            ran = sender.ended()
            return ran.status == 0, ran.out.strip()

    return sends


def by_sb(*words):
    def sends(paths, line, port):
        with sb_sending(words, paths, line) as (child, called):
            port.carry(called())
            return child.wait(LIMIT) == 0, "status %d" % child.returncode

    return sends


SENDERS = {
    "send": by_send(),
    "send --short": by_send("--short"),
    "sb": by_sb("sb"),
    "sb -k": by_sb("sb", "-k"),
}
# What stands behind a sender's name in its second session at a seed. What it differs from its first
# one is luck.
AGAIN = " again"
# What is damaged, and who is compared there. `sb` has short blocks, and `sb -k` long ones, as `send`
# has. Where frames are damaged, a long block costs more than a short one.
KINDS = (
    ("frames and replies flipped", BOTH, "send", "sb -k"),
    ("frames and replies flipped, short blocks", BOTH, "send --short", "sb"),
    ("frames flipped", FRAMES, "send", "sb -k"),
    ("frames flipped, short blocks", FRAMES, "send --short", "sb"),
    ("replies flipped", REPLIES, "send", "sb"),
)
# So exact is a median: `send` waits a fortieth of a second for CAN CAN behind the ACK of the end
# block, which `sb` does not.
EXACT = 0.05


def session(board, port, sender, which, seed):
    data = random.Random(seed).randbytes(SIZE)
    with tempfile.TemporaryDirectory(prefix="ymodem-") as here:
        start = board.ready(port, data)
        paths = write_files(here, [("image.bin", data)])
        line, began = Flips(seed, which), time.monotonic()
        try:
            says_finished, told = SENDERS[sender.removesuffix(AGAIN)](paths, line, port)
        except AssertionError as fault:  # it ended before all the damage was done
            says_finished, told = False, str(fault)
        ended = time.monotonic()
        is_whole = False
        if says_finished:
            with contextlib.suppress(AssertionError):
                board.wants_loaded(port, data, start)
                is_whole = True
    since_first = ended - (line.began or began)
    return Session(ended - began, since_first, is_whole, says_finished and not is_whole, told)


def sessions_of(board, senders, which, seed):
    """A session by each sender, in turn before and behind the other. The board is started once:
    how fast its clock runs is another matter at each start of the x86 board, and so is how long it
    waits. There it is another one in the board's second session, too."""
    came, left = {}, list(senders if seed % 2 else reversed(senders))
    while left:
        with board.started() as port:
            while left:
                sender = left.pop(0)
                came[sender] = session(board, port, sender, which, seed)
                if not came[sender].is_whole:  # nobody knows what the board is doing
                    break
    return came


def told_of(sender, sessions):
    whole = [it.seconds for it in sessions if it.is_whole]
    times = "none"
    if whole:
        first = statistics.median(it.since_first for it in sessions if it.is_whole)
        times = "median %.2f s, %.2f from the first frame" % (statistics.median(whole), first)
    false = sum(it.is_false for it in sessions)
    return "%s: %d of %d whole, %d false, %s" % (sender, len(whole), len(sessions), false, times)


SEEDS = int(os.environ.get("SEEDS", "20"))
# So many boards are on at once: each takes a processor.
POOL = ThreadPoolExecutor(int(os.environ.get("AT_ONCE", "2")))


def more_of(ours, theirs):
    """How much more seconds ours take from their first frame on, by the median of the differences
    at each seed. Until then either waits for the board to ask, which takes a board as long as its
    clock says."""
    both = [
        (a.since_first, b.since_first) for a, b in zip(ours, theirs) if a.is_whole and b.is_whole
    ]
    return statistics.median(a - b for a, b in both) if both else float("inf")


def across_seeds(board, which, ours, theirs):
    """Sessions by each sender that is here, seed by seed: ours says nothing that is not so, and
    takes no longer than `sb` does with blocks of that length. `sb` is run twice."""
    senders = [ours, theirs, theirs + AGAIN] if shutil.which("sb") else [ours]
    begun = [
        POOL.submit(sessions_of, board, senders, which, seed) for seed in range(1, SEEDS + 1)
    ]
    ended = [it.result() for it in begun]
    came = {sender: [it[sender] for it in ended] for sender in senders}
    told = "; ".join(told_of(sender, sessions) for sender, sessions in came.items())
    more = luck = 0
    if theirs in came:
        more, luck = (more_of(came[it], came[theirs]) for it in (ours, theirs + AGAIN))
    told = "%s: %s; %+.3f s more, and `sb` beside itself %+.3f" % (board.name, told, more, luck)
    print(told)
    assert not any(it.is_false for it in came[ours]) and more <= EXACT, told


@cases(
    *(
        case("%s, %s" % (it.name, what), it, *compared, marks=pytest.mark.long)
        for it in BOARDS
        for what, *compared in KINDS
    )
)
def test_check_of_seeds(board, which, ours, theirs):
    across_seeds(board, which, ours, theirs)


@cases(
    *(
        case("%s, at full speed behind a damaged block" % it.name, it, marks=pytest.mark.long)
        for it in BOARDS
    )
)
def test_recovers_at_length(board):
    recovers(board)
