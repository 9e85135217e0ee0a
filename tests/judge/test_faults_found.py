"""Faults that are planted in a plain receiver and a plain sender: each is found by a case which
conforms without it."""

from support.cases import case, cases
from support.faulty_peers import RECEIVER_FAULTS, SENDER_FAULTS
from support.judged import PEER, judged, told


# A fault of these shows as files that are not there, or are others.
LOST = (
    "takes a damaged block",
    "commits at an early EOT",
    "acknowledges before it stores, and stores nothing",
    "drops the last byte",
    "drops what is after 1A",
    "forgets the length",
    "forgets empty files",
    "cuts long names",
    "takes a repeat as new",
    "states a length that is cut",
    "cuts a length that has no room",
)


@cases(
    *(
        case("judge: a receiver that " + fault, "receiver", fault, name)
        for fault, name in RECEIVER_FAULTS.items()
    ),
    *(
        case("judge: a sender that " + fault, "sender", fault, name)
        for fault, name in SENDER_FAULTS.items()
    )
)
def test_is_found(kind, fault, name):
    """A fault that was planted is found by a case that conforms without it."""
    status, found = judged(kind, '%s %s "%s"' % (PEER, kind, fault), "--only", name)
    it = found[name]
    wanted = ("loses-data",) if fault in LOST else ("differs", "loses-data")
    assert it["finding"] in wanted, told(it)
    assert status == 1 or it["finding"] == "differs", "status %d" % status
