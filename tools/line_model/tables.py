"""Tables of what becomes of sessions: `python3 tables.py [TABLE,..] [PAIR..]`.

A pair is a sender and a receiver: `rule-rule`, `today-today`, `sb-rule`, `rule-rb`, ..
"""

import random
import sys
from statistics import median

import peers
from line import MS, SECOND, Echo, Way
from sessions import files_of, session

QUARTERS = [k * 250 * MS for k in range(49)]
DELAYS = (0, SECOND // 2, 2 * SECOND)
PAIRS = (
    ("rule", "rule"),
    ("today", "today"),
    ("sb", "rule"),
    ("sb", "today"),
    ("rule", "rb"),
    ("sb", "rb"),
    ("still", "still"),
    ("back", "back"),
)


def both(**settings):
    return {"there": Way(**settings), "back": Way(**settings)}


def row(name, told):
    """One line: how many whole, how many false, and the seconds of the whole ones."""
    whole = [t.seconds for t in told if t.is_whole]
    false = sum(not t.is_true for t in told)
    counts = (len(told), len(whole), len(told) - len(whole), false)
    times = (median(whole) if whole else 0, max(whole, default=0))
    text = "%-46s %4d sessions, %4d whole, %3d part, %3d FALSE, median %6.1f s, longest %7.1f s"
    print(text % ((name,) + counts + times))
    return false


def pairs_of(wanted):
    return [pair for pair in PAIRS if not wanted or "-".join(pair) in wanted]


def delays(wanted):
    for sender, receiver in pairs_of(wanted):
        for jitter in (0, SECOND):
            for low, high in ((0, 2), (2.25, 4), (4.25, 8), (8.25, 12)):
                told = []
                for delay in QUARTERS:
                    if low * SECOND <= delay <= high * SECOND:
                        ways = both(delay=delay, jitter=jitter)
                        told += [session(seed, sender, receiver, **ways) for seed in range(3)]
                names = (sender, receiver, low, high, jitter / SECOND)
                row("%s to %s, %.1f to %.1f s, jitter %d" % names, told)


def late(wanted):
    for sender, receiver in pairs_of(wanted):
        for delay in DELAYS:
            for side, name in enumerate(("sender", "receiver")):
                told = []
                for start in list(range(0, 30)) + [35, 45, 60]:
                    wait = [0, 0]
                    wait[side] = start * SECOND + 137 * MS
                    ways = both(delay=delay)
                    told.append(session(start, sender, receiver, late=wait, **ways))
                names = (sender, receiver, name, delay / SECOND)
                row("%s to %s, late %s, delay %.1f" % names, told)


STALLS = (1, 2, 3, 4, 5, 7, 9, 9.95, 10, 10.05, 12, 15, 20, 21, 25, 30)


def stalled(wanted):
    """Either end stands still before one of its writes."""
    files = files_of(5, (1, 300, 3000))
    for sender, receiver in pairs_of(wanted):
        for delay in DELAYS:
            for side, name in enumerate(("sender", "receiver")):
                told = []
                for seconds in STALLS:
                    for number in range(1, 16):
                        stalls = [{}, {}]
                        stalls[side] = {number: int(seconds * SECOND)}
                        ways = both(delay=delay)
                        told.append(session(number, sender, receiver, files, stalls=stalls, **ways))
                names = (sender, receiver, name, delay / SECOND)
                row("%s to %s, %s stalls, delay %.1f" % names, told)


STANDS = (1, 2, 2.5, 2.9, 3, 3.1, 4, 6, 9, 10, 12, 20, 30)


def stuck(wanted):
    """The line itself stands still for a while, in one direction."""
    for sender, receiver in pairs_of(wanted):
        for delay in DELAYS:
            for way in ("there", "back"):
                told = []
                for seconds in STANDS:
                    for begin in range(0, 12):
                        at = 3 * SECOND + begin * (3 * SECOND // 10 + 4 * delay)
                        ways = both(delay=delay)
                        ways[way].stalls = ((at, at + int(seconds * SECOND)),)
                        told.append(session(begin, sender, receiver, **ways))
                names = (sender, receiver, way, delay / SECOND)
                row("%s to %s, line stuck %s, delay %.1f" % names, told)


NOISE = (
    ("lost 0.02%", {"lost": 0.0002}),
    ("lost 0.05%", {"lost": 0.0005}),
    ("lost 0.1%", {"lost": 0.001}),
    ("flipped 0.01%", {"flipped": 0.0001}),
    ("flipped 0.05%", {"flipped": 0.0005}),
    ("doubled 0.05%", {"doubled": 0.0005}),
    ("all three 0.03%", {"lost": 0.0003, "flipped": 0.0003, "doubled": 0.0003}),
)


def noise(wanted, seeds=20):
    for name, settings in NOISE:
        for sender, receiver in pairs_of(wanted):
            told = [session(seed, sender, receiver, **both(**settings)) for seed in range(seeds)]
            row("%s to %s, %s" % (sender, receiver, name), told)


ECHOES = (
    ("exact", Echo()),
    ("late 0.3 s", Echo(after=300 * MS)),
    ("late 1.5 s", Echo(after=1500 * MS)),
    ("late 5 s", Echo(after=5 * SECOND)),
    ("cut at 20", Echo(keep=20)),
    ("cut at 2", Echo(keep=2)),
    ("losing 0.1%", Echo(lost=0.001)),
    ("losing 1%", Echo(lost=0.01)),
    ("losing 20%", Echo(lost=0.2)),
)


def echo(wanted):
    files = files_of(7, (1, 0, 300, 9000, 40000))
    for sender, receiver in pairs_of(wanted):
        for name, made in ECHOES:
            places = (
                ("sender", (made, None)),
                ("receiver", (None, made)),
                ("both", (made, made)),
            )
            for where, echoes in places:
                told = [session(n, sender, receiver, files, echoes=echoes) for n in range(16)]
                row("%s to %s, echo %s, at the %s" % (sender, receiver, name, where), told)


def uboot(wanted):
    for sender in ("rule", "today", "sb"):
        for delay in (0, 50 * MS, 500 * MS):
            told = []
            for seed in range(20):
                damaged = tuple(range(3 + seed % 4, 8 + seed % 4))
                there = Way(delay=delay, damaged=damaged[:3])
                back = Way(delay=delay, damaged=damaged[3:])
                files = files_of(seed, (20000,))
                told.append(session(seed, sender, "uboot", files, there=there, back=back))
            row("%s to uboot, five damaged, delay %.2f" % (sender, delay / SECOND), told)
        told = []
        for seed in range(100):
            flips = random.Random(seed).sample(range(2, 14), 5)
            told.append(session(seed, sender, "uboot", files_of(seed, (20000,)), flips=flips))
        row("%s to uboot, five of the first deliveries with a bit flipped" % sender, told)
        for name, settings in NOISE:
            told = []
            for seed in range(20):
                files = files_of(seed, (20000,))
                told.append(session(seed, sender, "uboot", files, **both(**settings)))
            row("%s to uboot, %s" % (sender, name), told)


# How long a boot loader waits for each byte: U-Boot two seconds, or less than half of that where
# its clock runs fast, as for x86 in QEMU.
WAITS = (500, 750, 850, 1000, 1200, 1500, 2000, 3000, 4000)


def waits(wanted):
    """A bit of five of the first frames, or replies, is flipped; a boot loader waits so long."""
    was = peers.WAIT
    for wait in WAITS:
        peers.WAIT = wait * MS
        for name, counts in (("frames", (True, False)), ("replies", (False, True))):
            for sender in ("rule", "sb"):
                told = []
                for seed in range(20):
                    flips = random.Random(seed).sample(range(2, 14), 5)
                    files = files_of(seed, (20000,))
                    told.append(session(seed, sender, "uboot", files, flips=flips, counts=counts))
                row("%s to uboot, waits of %d ms, %s flipped" % (sender, wait, name), told)
    peers.WAIT = was


BATCHES = ((1, 300, 3000), (0, 0, 5), (2000, 0, 100), (128, 1024, 0))


def way_by(chance):
    """A way with a delay, a jitter, a speed, noise, and a time in which it stands still."""
    rate = chance.choice((0, 0, 0.0001, 0.0003, 0.001))
    at = chance.randrange(60) * SECOND
    delay = chance.choice((0, 0, 20, 300, 800, 1500, 2000, 3000)) * MS
    jitter = chance.choice((0, 0, 0, 300, 1000)) * MS
    baud = chance.choice((9600, 115_200, 115_200, 10_000_000))
    flipped, doubled = chance.choice((0, rate)), chance.choice((0, rate))
    stands = ((at, at + chance.randrange(30) * SECOND),) if chance.random() < 0.3 else ()
    return Way(delay, jitter, baud, rate, flipped, doubled, stands)


def mixed(wanted, seeds=4000):
    """Everything at once, by chance: both ways, a stall and a late start of either end."""
    for sender, receiver in pairs_of(wanted):
        told = []
        for seed in range(seeds):
            chance = random.Random(seed)
            ways = {"there": way_by(chance), "back": way_by(chance)}
            stalls, wait = [{}, {}], [0, 0]
            for side in range(2):
                if chance.random() < 0.3:
                    stalls[side] = {chance.randrange(1, 20): chance.randrange(30 * SECOND)}
                if chance.random() < 0.3:
                    wait[side] = chance.randrange(25 * SECOND)
            files = files_of(seed, chance.choice(BATCHES))
            ways.update(late=wait, stalls=stalls, twice=chance.random() < 0.5)
            told.append(session(seed, sender, receiver, files, **ways))
        row("%s to %s, all by chance" % (sender, receiver), told)
        print("   false at", [seed for seed, t in enumerate(told) if not t.is_true][:20])


TABLES = {
    "delays": delays,
    "late": late,
    "stalled": stalled,
    "stuck": stuck,
    "noise": noise,
    "echo": echo,
    "uboot": uboot,
    "waits": waits,
    "mixed": mixed,
}

if __name__ == "__main__":
    for which in sys.argv[1].split(",") if len(sys.argv) > 1 else TABLES:
        TABLES[which](sys.argv[2:])
