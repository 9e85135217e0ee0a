"""Both ends of the module in one page, over lines with delay, jitter, late starts, stalls, echo and
noise, by a clock that the check winds on by itself (tests/web/lines.js).

In every session what the ends say has to be so: each file that the sender tells as sent is there,
exact, and nobody finishes while a file is missing. Where the counts allow, all of it has to be
there. The rows are those of tests/sessions, which tries the program so, in real time.
"""

import functools
import json
import os
import statistics

from support.cases import case, cases_in
from support.empty_page import Empty
from support.rooms import BROWSERS


HERE = os.path.dirname(os.path.abspath(__file__))


@functools.lru_cache
def harness():
    with open(os.path.join(HERE, "lines.js"), encoding="utf-8") as it:
        return it.read()


def steps(first, last, step=0.25):
    return [first + step * at for at in range(int((last - first) / step) + 1)]


def delays():
    """One way 0 to 4 seconds: all of it arrives. From there to 12 seconds every report is true."""
    for jitter in (0, 1):
        for delay in steps(0, 4):
            name = "%.2f s each way, jitter %d s" % (delay, jitter)
            yield {"name": name, "delay": delay, "jitter": jitter, "seeds": 1 + 2 * jitter}
        for delay in steps(4.5, 12, 0.75):
            name = "%.2f s each way, jitter %d s" % (delay, jitter)
            yield {"name": name, "delay": delay, "jitter": jitter, "wants": False}


def late_starts():
    """A receiver alone gives up within half a minute, and a sender after a hundred seconds."""
    for delay in (0, 0.5, 2):
        for long in (0, 1, 3, 5, 10, 20, 29, 45, 60):
            for who in ("sender", "receiver"):
                name = "the %s %d s late, %g s each way" % (who, long, delay)
                is_in_time = long <= 21 or (who == "receiver" and long < 60)
                late = {"who": who, "long": long}
                yield {"name": name, "delay": delay, "late": late, "wants": is_in_time}


def stalls():
    for delay in (0, 0.5, 2):
        for long in (1, 3, 6, 9, 12, 21, 30):
            for who in ("sender", "receiver"):
                for at in range(1, 9):
                    name = "the %s stalls %d s at %d, %g s each way" % (who, long, at, delay)
                    stall = {"who": who, "at": at, "long": long}
                    yield {"name": name, "delay": delay, "stall": stall, "wants": long <= 12}


def echoes():
    for delay in (0, 0.3):
        yield {"name": "an echo, %g s each way" % delay, "delay": delay, "echo": "there"}
    for cut in (2, 3, 40):
        name = "an echo of the first %d bytes" % cut
        yield {"name": name, "echo": "there", "cut": cut, "wants": False}


def noise():
    files = [1, 300, 3000, 9000, 20000]
    for name, how in (
        ("lost, 0.02%", {"lost": 0.0002}),
        ("lost, 0.1%", {"lost": 0.001}),
        ("flipped, 0.01%", {"flipped": 0.0001}),
        ("flipped, 0.05%", {"flipped": 0.0005}),
        ("both, 0.03%", {"lost": 0.0003, "flipped": 0.0003}),
    ):
        row = {"name": name, "rate": 11520, "files": files, "wants": False, **how}
        for first in range(0, 20, 4):
            yield {**row, "first": first, "seeds": 4}


def told(came):
    """What is wrong with a session."""
    why = came["wrong"] or ("" if came["isWhole"] or not came["wants"] else "not whole")
    return "%s, seed %d: %s (%s)" % (came["name"], came["seed"], why, came["told"]) if why else ""


PLAYED = "playedRows(%s)"
# So many rows are played by one call, so that none takes long on a machine that is busy.
AT_ONCE = 5


def pieces(rows):
    rows = list(rows)
    return [rows[at : at + AT_ONCE] for at in range(0, len(rows), AT_ONCE)]


@cases_in(
    BROWSERS,
    *(
        case("two ends on lines with %s" % kind, kind, rows)
        for kind, rows in (
            ("delay", delays),
            ("late starts", late_starts),
            ("stalls", stalls),
            ("echo", echoes),
            ("noise", noise),
        )
    )
)
def test_played(room, kind, rows):
    with Empty(room, harness()) as page:
        outcomes = [it for some in pieces(rows()) for it in page.run(PLAYED % json.dumps(some))]
    wrong = [it for it in map(told, outcomes) if it]
    whole = [it["seconds"] for it in outcomes if it["isWhole"]]
    counts = (room.browser.name, kind, len(outcomes), len(whole), statistics.median(whole))
    room.note("%s, lines with %s: %d sessions, %d whole, in %.1f s (median)" % counts)
    assert not wrong, "%d sessions: %s" % (len(wrong), "; ".join(wrong[:5]))


@cases_in(
    BROWSERS,
    case("a sender writes again once noise was quiet for a second", 6000, 7000),
    case("a sender writes again in noise without end once a reply was due", 15000, 10200),
)
def test_noisy_reply(room, long, wanted):
    """Of a delivery that has begun more is waited for since the last byte, also where that is not
    heard, and at most for as long as a reply may take: 10,000 milliseconds."""
    with Empty(room, harness()) as page:
        waited = page.run("waitedInNoise(%d)" % long)
    assert wanted <= waited <= wanted + 1, "it wrote again behind %s" % waited
