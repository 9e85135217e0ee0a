"""What is found of whole peers by all cases: the program's own ends, a plain receiver and a plain
sender, and those of lrzsz."""

import shlex

import pytest

from support.cases import case, cases, sentence
from support.judged import PEER, judged, judged_by_all, ran, told
from support.program import PROGRAM


# The program, as a word of /bin/sh.
OURS = shlex.quote(PROGRAM)


def of_others(found):
    """The cases that do not conform."""
    return [it for it in found.values() if it["finding"] != "conforms"]


@pytest.mark.slow
@cases(
    case(
        "judge: receive conforms in every case",
        "receiver",
        OURS + " receive --eager --port $PORT .",
        tries=3,
    ),
    case("judge: send conforms in every case", "sender", OURS + " send --port $PORT $FILE", tries=3),
    case("judge: a plain receiver conforms", "receiver", PEER + " receiver"),
    case("judge: a plain sender conforms", "sender", PEER + " sender"),
)
def test_conforms(kind, command, tries=1):
    """Each case conforms. The times of `receive` are those of a line: it asks after three seconds,
    also where `judge` is late with a frame since the machine is busy. So a case that does not
    conform is tried again, beside three others: a fault shows each time."""
    status, found = judged_by_all(kind, command)
    for _ in range(tries - 1):
        if of_others(found):
            words = [word for it in of_others(found) for word in ("--only", it["case"])]
            status, again = judged(kind, command, "--jobs", "4", *words)
            found |= again
    wrong = [told(it) for it in of_others(found)]
    assert not wrong, "; ".join(wrong)
    back = [name for name, it in found.items() if it["takes_back"]]
    assert not back, "an ACK is taken back: %r" % back
    assert status == 0, "status %d" % status


# The cases at which each of them loses data, as docs/peers.md has them.
LOSES = {
    "rb": {"data block %d: an early EOT in its place" % it for it in (1, 2)},
    "sb $FILE": {"a name of 124 bytes"},
}


@pytest.mark.slow
@cases(
    case("judge: rb of lrzsz", "receiver", "rb", marks=pytest.mark.needs("rb")),
    case("judge: sb of lrzsz", "sender", "sb $FILE", marks=pytest.mark.needs("sb")),
)
def test_loses(kind, command):
    """A peer that is used differs where it does, and loses data where the page says so alone."""
    _, found = judged_by_all(kind, command)
    lost = {name for name, it in found.items() if it["finding"] == "loses-data"}
    assert lost == LOSES[command], "it loses data at %s" % sorted(lost)
    # `rb` acknowledges the first EOT, so that there is no second one.
    asked = (it for name, it in found.items() if "second EOT" not in name)
    left = [told(it) for it in asked if it["finding"] in ("no-answer", "not-tried")]
    assert not left, "; ".join(left)


@sentence("judge: a C that comes late behind the ACK of block 0 is waited for")
def test_waits_for_a_late_start():
    """Who says C as late as U-Boot does conforms all the same."""
    status, found = judged("receiver", PEER + ' receiver "says C late"', "--only", "plain")
    assert found["plain"]["finding"] == "conforms", told(found["plain"])
    assert status == 0, "status %d" % status


@sentence("judge: a sender that pauses in each block conforms")
def test_waits_within_a_frame():
    """A frame that stands still for half a second is one frame all the same. A machine that stands
    still for as long may make it two, and then it is tried again."""
    for _ in range(3):
        command = PEER + ' sender "pauses in each block"'
        status, found = judged("sender", command, "--only", "plain")
        if status == 0 and found["plain"]["finding"] == "conforms":
            return
    raise AssertionError(told(found["plain"]))


@sentence("judge: an ACK that is taken back is told")
def test_tells_that_an_ack_is_taken_back():
    """Who acknowledges what did not come, and cancels behind it, is said to do so."""
    name, command = "end block: late", PEER + ' receiver "takes its ACK back"'
    status, found = judged("receiver", command, "--only", name)
    assert status == 1 and found[name]["takes_back"], told(found[name])
    status, lines = ran("receiver", command, "--only", name)
    assert status == 1 and lines[1:] == [
        "avoid end block: late: it takes an ACK back",
        "0 conform, 1 differ (harmless), 0 lose data, 0 left open",
    ], "%r" % lines


# The plain sender, which sends judge.txt whatever it is asked for.
ONE_NAME = "FILE=judge.txt %s sender" % PEER


@sentence("judge: a sender of another name is not tried by the long one")
def test_is_not_tried_by_a_name():
    """A command that sends judge.txt alone leaves the case of a long name open, and that one."""
    status, found = judged("sender", ONE_NAME, "--only", "a name of 124 bytes", "--only", "plain")
    findings = {name: it["finding"] for name, it in found.items()}
    assert findings == {"plain": "conforms", "a name of 124 bytes": "not-tried"}, "%r" % findings
    assert status == 0, "status %d" % status
