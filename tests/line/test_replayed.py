"""What real ends of a line read, played again to the proved engines over the program's port.

Each end runs under strace, which records what every read of the line brought, every wait that
ended in quiet, and every write, with the moment at which each was over. The program `port_cases`
plays that to the same engine over the same port, on a line that does once more what it did. There
the engine ends as its contract says: how, in which state, with how many files, and what it wrote.
The process has to have written, reported and stored the same.
"""

import ast
import os
import re
import socket
import subprocess

from support.batches import few_files
from support.cases import NEEDS_LRZSZ, case, cases
from support.end_to_end import carried
from support.lrzsz import beside_lrzsz
from support.program import (
    LIMIT,
    ROOT,
    connected,
    folders,
    free_port,
    running,
    stored,
    wants_same,
    write_files,
)
from support.relay import Clean, Relay, Seeded
from support.serial_line import SerialLine
from support.skipping import Skipped
from support.tracing import calls_of, strace


CASES = os.path.abspath(
    os.environ.get("CASES", os.path.join(ROOT, "crates", "port_cases", "out", "port_cases"))
)
CALLS = "connect,accept,accept4,recvfrom,sendto,read,write,dup,fcntl"
DATA = re.compile(r'(\d+), ("(?:\\x[0-9a-f]{2})*")')

# The words of a report for a state, where they are not the state's name in small letters.
WORDS = {
    "NoReply": "no-reply",
    "SourceFailed": "source-failed",
    "TooManyErrors": "too-many-errors",
    "OutOfStep": "out-of-step",
    "SinkFailed": "sink-failed",
}


def tool(log):
    """Strace, such that each call is seen with all its bytes and its moments."""
    return strace(log, "-ttt", "-T", "-xx", "-s", "1000000", "-e", "trace=" + CALLS)


def line_of(calls):
    """The descriptor of the line, what the end connected or what came to it, and the calls behind
    that."""
    for at, call in enumerate(calls):
        if call.name.startswith("accept") and call.answer.isdigit():
            return call.answer, calls[at + 1 :]
        if call.name == "connect" and (call.answer == "0" or "EINPROGRESS" in call.rest):
            return call.arguments.split(",")[0], calls[at + 1 :]
    raise AssertionError("the end had no line")


def bytes_in(call, count):
    """The bytes that a call carried."""
    return ast.literal_eval("b" + DATA.match(call.arguments)[2])[:count]


def deed_of(call):
    """What a call of the line did, as `port_cases` takes it; nothing where it is to be left out."""
    if call.name in ("sendto", "write"):
        return "wrote" if call.answer.isdigit() else None
    if call.answer == "0":
        return "closed"
    if call.answer.isdigit():
        return bytes_in(call, int(call.answer)).hex()
    if "EAGAIN" in call.rest:
        return "quiet"
    if "EINTR" in call.rest:
        return None
    raise AssertionError("a read failed: %r" % call.rest)


def tape(log):
    """What the line did, a word each with the millisecond in which it was over, and all the bytes
    written."""
    line, calls = line_of(calls_of(log))
    deeds, written, first = [], b"", None
    for call in calls:
        if call.name not in (
            "recvfrom",
            "read",
            "sendto",
            "write",
        ) or not call.arguments.startswith(line + ","):
            continue
        deed = deed_of(call)
        if deed:
            first = call.over if first is None else first
            deeds.append("%d:%s" % (1000 + 1000 * (call.over - first), deed))
        if deed == "wrote":
            written += bytes_in(call, int(call.answer))
    return deeds, written


def played(role, files, deeds):
    """How the engine ends whose line did this: how it returned, its state in the words of a report,
    its count, the files that it committed, and what it wrote."""
    head = " ".join([role, *("%s=%s" % (name, data.hex() or "-") for name, data in files)])
    given = "%s | %s\n" % (head, " ".join(deeds))
    told = subprocess.run([CASES], input=given, capture_output=True, text=True, timeout=LIMIT)
    assert not told.returncode, "port_cases: " + told.stderr
    said, *committed = told.stdout.removeprefix(given).splitlines()
    found = re.fullmatch(
        r"  \S+ (\S+), (\d+) (?:done|kept), 0 faults, 0 left, wrote ([0-9a-f]*)", said
    )
    assert found, "port_cases: %r" % said[:200]
    state, count, wrote = found.groups()
    kept = [
        (name, bytes.fromhex(data)) for _, name, data in (line[2:].split(" ") for line in committed)
    ]
    return WORDS.get(state, state.lower()), int(count), kept, bytes.fromhex(wrote)


def wants_replayed(log, role, ended, files=(), kept=None):
    """Fails where an end wrote, reported or stored anything but what its engine makes of what its
    line did."""
    deeds, written = tape(log)
    state, count, committed, wrote = played(role, files, deeds)
    if wrote != written:
        at = next(
            (at for at, both in enumerate(zip(wrote, written)) if both[0] != both[1]),
            min(len(wrote), len(written)),
        )
        raise AssertionError(
            "%s wrote %d bytes, its engine %d; they part at byte %d"
            % (role, len(written), len(wrote), at)
        )
    line = ("sender done %d %s" if role.startswith("send") else "receiver files %d %s") % (
        count,
        state,
    )
    assert ended.out.splitlines()[-1:] == [line], "the end told %r, its engine %r" % (
        ended.out[-80:],
        line,
    )
    if kept is not None:
        wants_same(kept, dict(committed))


def roles(flags):
    return "send" + " short" * ("--short" in flags), "receive" + " once" * ("--single" in flags)


def wants_program():
    if not os.access(CASES, os.X_OK):
        raise Skipped("crates/port_cases is not built (make cases)")


ALL_FLAGS = ([], ["--short"], ["--single"], ["--short", "--single"])


@cases(
    *(
        case(
            " ".join(["what receive reads from sb, played again", *flags]),
            few_files(),
            flags,
            marks=NEEDS_LRZSZ,
        )
        for flags in ALL_FLAGS[:1] + ALL_FLAGS[2:3]
    )
)
def test_from_sb(files, flags):
    wants_program()
    with folders() as (here, there):
        write_files(here, files)
        port, log = free_port(), os.path.join(here, "log")
        with running(
            "receive", "--port", port, *flags, there, before=tool(log)
        ) as receive, connected(port) as end:
            ended, _ = beside_lrzsz(["sb", *(name for name, _ in files)], here, end, receive)
        wants_replayed(log, roles(flags)[1], ended, kept=stored(there))


@cases(
    *(
        case(
            " ".join(["what send reads from rb, played again", *flags]),
            few_files(),
            flags,
            marks=NEEDS_LRZSZ,
        )
        for flags in ALL_FLAGS[:2]
    )
)
def test_to_rb(files, flags):
    wants_program()
    with folders() as (here, there):
        paths = write_files(here, files)
        log = os.path.join(here, "log")
        with socket.create_server(("127.0.0.1", 0)) as listener:
            listener.settimeout(LIMIT)
            port = listener.getsockname()[1]
            with running("send", "--port", port, *flags, *paths, before=tool(log)) as send:
                end, _ = listener.accept()
                with end:
                    ended, _ = beside_lrzsz(["rb"], there, end, send)
        wants_replayed(log, roles(flags)[0], ended, files)


def damaging(seed):
    """What makes a relay to a port, whose line damages deliveries."""
    return lambda port: Relay(Seeded(seed, 0.4, most=12), port)


def asked_before(asked):
    """What makes a serial line to a port, at which the receiver asks so often before the start."""
    return lambda port: SerialLine(Clean(), port, 115_200, asked)


@cases(
    *(
        case(
            " ".join(["what both ends read, played again, seed %d" % seed, *ALL_FLAGS[seed % 4]]),
            few_files(),
            damaging(seed + 40),
            ALL_FLAGS[seed % 4],
        )
        for seed in range(8)
    ),
    *(
        case(
            "what both ends read, played again, %d questions before the start" % asked,
            few_files()[:2],
            asked_before(asked),
            [],
        )
        for asked in (0, 2)
    ),
)
def test_between_both(files, relay_to, flags):
    """Both ends are ours, with a line between them."""
    wants_program()
    with folders() as (logs, _):
        log = [os.path.join(logs, name) for name in ("send", "receive")]
        ends = carried(files, relay_to, flags, tools=[tool(it) for it in log])
        sender, receiver = roles(flags)
        wants_replayed(log[0], sender, ends.sent, files)
        wants_replayed(log[1], receiver, ends.received, kept=ends.kept)
