"""Each read and each write of a connection is refused in turn, at either end. A call that a signal
interrupts is made again, a read for what is left of its wait. At every other error what both ends
tell is so, and why it failed is told.
"""

import functools
import os
import random
from concurrent.futures import ThreadPoolExecutor

import pytest
from support.cases import case, cases
from support.claims import Claim, claim_of_receive, claim_of_send, wants_true
from support.peers import PlainReceiver, receive_plainly, send_to
from support.program import folders, stored
from support.storing import received, steadily, told
from support.telling import FAULT
from support.tracing import calls_of, numbered, strace


pytestmark = pytest.mark.steadily

CHANCE = random.Random(31)
FILES = [("first", CHANCE.randbytes(1100)), ("second", CHANCE.randbytes(100))]
CALLS = "recvfrom,sendto"
BROKE = "the line failed: the device failed, or was unplugged\n" + FAULT
CLOSED = "the other end closed the connection\nfault: closed\n"
LEFT = "the line failed: the other end broke the connection off\n" + FAULT


def claim_of(ended):
    """What `receive` claims. It has finished, and failed, where only its answer to the end block
    could not be written."""
    if ended.status == 3 and ended.out == told(FILES):
        return Claim("receive", True, len(FILES), True)
    return claim_of_receive(ended, FILES)


def at_receive(before):
    """How `receive` ends, where what both ends claim of the stored files is so."""
    with folders() as (_, there):
        ended, sender = received(FILES, there, ["--verbose"], before)
        peer = Claim("the sender", sender.is_finished, sender.done)
        wants_true(FILES, stored(there), [claim_of(ended), peer])
        return ended


def at_send(before):
    """The same of `send`, and of what its peer has kept."""
    receiver = PlainReceiver()
    ended = send_to(
        lambda end: receive_plainly(end, receiver), FILES, flags=["--verbose"], before=before
    )
    peer = Claim("the receiver", receiver.is_finished)
    wants_true(FILES, receiver.kept, [claim_of_send(ended), peer])
    return ended


def one_refused(session, call, number, error):
    """The session where this one call fails. Why is told last."""
    with folders() as (here, _):
        log = os.path.join(here, "log")
        inject = "inject=%s:error=%s:when=%d" % (call.name, error, number)
        ended = session(strace(log, "-e", "trace=" + CALLS, "-e", inject))
        was_refused = any(it.is_injected for it in calls_of(log))
    if error == "EINTR" or not was_refused:
        assert ended.status == 0, "%s by %s: %r" % (call, error, ended.err)
        return
    why = BROKE if error == "EIO" else LEFT if call.name == "sendto" else CLOSED
    # Whoever acknowledges the end block may leave at once.
    assert ended.err.endswith(why) or (
        error == "ECONNRESET" and ended.status == 0
    ), "%s by %s: %r" % (call, error, ended.err)


@cases(
    *(
        case("refused: each read and write of %s, by %s" % (end, error), session, error)
        for end, session in (("receive", at_receive), ("send", at_send))
        for error in ("EINTR", "EIO", "ECONNRESET")
    )
)
def test_each_call(session, error):
    """One call in each batch fails so."""
    with folders() as (here, _):
        log = os.path.join(here, "log")
        session(strace(log, "-e", "trace=" + CALLS))
        calls = list(numbered(calls_of(log)))
    assert {call.name for call, _ in calls} == set(CALLS.split(",")), "it makes no such call"
    one = [steadily(functools.partial(one_refused, session, *it, error)) for it in calls]
    with ThreadPoolExecutor(4) as pool:
        list(pool.map(lambda it: it(), one))
