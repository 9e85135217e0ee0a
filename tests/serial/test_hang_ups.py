"""Lines that hang up at each place of a batch: how `ymodem sb` and `ymodem rb` end then, what they
report, and what is stored.

The other end is this check. It goes as far as the place, by the plain ends of `peers`, and pulls
the plug there. So it is known what was written and heard by then, and what the report has to be.
"""

import random

from support.cable import plug, ticking
from support.cases import case, cases
from support.frames import END, EOT, START, frames_of
from support.on_line import ends_with, started
from support.peers import PlainReceiver, frames_at
from support.plug_end import End
from support.program import PROGRAM, file_lines, folders, stored, wants_same, write_files
from support.system_calls import READ, WRITE, bytes_read, waits_in
from support.waits import wait_until


CHANCE = random.Random(18)
FILES = [("first", CHANCE.randbytes(1500)), ("second", CHANCE.randbytes(300))]
CLOSED = "the line hung up\nfault: closed\n"
FAILED = "the line hung up\nfault: device\n"


def places():
    """Each frame of the batch as it goes out, with its name, and how many files were acknowledged
    before it. The first EOT of a file is asked for again."""
    made, done, block = [], 0, None
    for frame in frames_of(FILES):
        of = " of the %s file" % ("first", "second")[done] if done < len(FILES) else ""
        if frame == END:
            made.append(("the end block", frame, done))
        elif frame[0] == EOT:
            made += [("the EOT" + of, frame, done), ("the second EOT" + of, frame, done)]
            done, block = done + 1, None
        else:
            block = 0 if block is None else block + 1
            made.append(("block %d%s" % (block, of), frame, done))
    return made


PLACES = places()


def wants_end(child, status, out, err):
    told, said = ends_with(child, status)
    wants_same({"reported": told}, {"reported": out})
    assert said.endswith(err), "it said %r, wanted %r" % (said, err)


def wants_kept(folder, count):
    """So many files are there, whole, and at most a part of one more."""
    kept = stored(folder)
    for name, _ in FILES[count : count + 1]:
        kept.pop(name + ".part", None)
    wants_same(kept, dict(FILES[:count]))


def sending(work):
    """A check of `ymodem sb`, on a plug that the work pulls. The work gives the check's end, the
    program and a plain receiver, and answers the status, the report and what is told."""
    with folders() as (here, _), plug() as it:
        ticking(it.outer)
        words = ["sb", "--verbose", "--line", it.path, *write_files(here, FILES)]
        with started([PROGRAM, *words], here) as child:
            wants_end(child, *work(End(it), child, PlainReceiver()))


def before_the_first_c(end, child, _):
    waits_in(child.pid, READ, end.it.path)
    end.it.pull()
    return 3, "sender done 0 running\n", CLOSED


def answered(end, receiver, count):
    """Answers so many frames, all but for the reply to the last of them, which it gives."""
    frames, reply = frames_at(end), bytes((START,))
    for _ in range(count):
        end.sendall(reply)
        reply = receiver.answer(next(frames))
    return reply


@cases(
    *(
        case("sb: the line hangs up in the write of " + name, at)
        for at, (name, _, _) in enumerate(PLACES)
    )
)
def test_sender_in_a_write(at):
    """The plug is pulled while the sender waits in the write of this frame."""

    def work(end, child, receiver):
        reply = answered(end, receiver, at)
        end.hold()
        end.sendall(reply)
        waits_in(child.pid, WRITE, end.it.path)
        end.it.pull()
        return 3, "sender done %d running\n" % PLACES[at][2], FAILED

    sending(work)


@cases(
    *(
        case("sb: the line hangs up before the reply to " + name, at)
        for at, (name, _, _) in enumerate(PLACES)
    )
)
def test_sender_before_a_reply(at):
    """The plug is pulled when this frame has come, before its reply."""

    def work(end, child, receiver):
        answered(end, receiver, at + 1)
        waits_in(child.pid, READ, end.it.path)
        end.it.pull()
        return 3, "sender done %d running\n" % PLACES[at][2], CLOSED

    sending(work)


def sender_behind_all(end, child, receiver):
    """The ACK of the end block was read, and then the line hangs up: whoever acknowledges that may
    leave at once."""
    reply = answered(end, receiver, len(PLACES))
    before = bytes_read(child.pid)
    end.sendall(reply)
    wait_until(
        lambda: child.poll() is not None or bytes_read(child.pid) > before, "the ACK was read"
    )
    end.it.pull()
    return 0, "sender done %d finished\n" % len(FILES), ""


@cases(
    case("sb: the line hangs up before the first C", before_the_first_c),
    case("sb: the line hangs up behind the last ACK", sender_behind_all),
)
def test_sending(work):
    sending(work)


def receiving(work):
    """The same of `ymodem rb`. The work answers how many files are stored then, too."""
    with folders() as (_, there), plug() as it:
        ticking(it.outer)
        words = ["rb", "--verbose", "--line", it.path, there]
        with started([PROGRAM, *words], there) as child:
            end = End(it)
            end.wants(bytes((START,)))
            status, count, state, told = work(end, child, PlainReceiver())
            report = "receiver files %d %s\n" % (count, state)
            wants_end(child, status, file_lines(FILES[:count]) + report, told)
        wants_kept(there, count)


def given(end, receiver, count):
    """Sends so many frames, and waits for the reply to each."""
    for _, frame, _ in PLACES[:count]:
        end.sendall(frame)
        end.wants(receiver.answer(frame))


@cases(
    *(case("rb: the line hangs up before " + name, at) for at, (name, _, _) in enumerate(PLACES))
)
def test_receiver_before_a_frame(at):
    """The plug is pulled when the frame before this one was answered."""

    def work(end, child, receiver):
        given(end, receiver, at)
        waits_in(child.pid, READ, end.it.path)
        end.it.pull()
        return 3, PLACES[at][2], "running", CLOSED

    receiving(work)


@cases(
    *(
        case("rb: the line hangs up in " + name, at)
        for at, (name, frame, _) in enumerate(PLACES)
        if len(frame) > 1
    )
)
def test_receiver_in_a_frame(at):
    """The plug is pulled when half of this frame has been read."""

    def work(end, child, receiver):
        given(end, receiver, at)
        frame, before = PLACES[at][1], bytes_read(child.pid)
        end.sendall(frame[: len(frame) // 2])
        wait_until(lambda: bytes_read(child.pid) >= before + len(frame) // 2, "half of it was read")
        end.it.pull()
        return 3, PLACES[at][2], "running", CLOSED

    receiving(work)


def receiver_behind_all(end, child, receiver):
    """The end block was acknowledged, and then the line hangs up."""
    given(end, receiver, len(PLACES))
    end.it.pull()
    return 0, len(FILES), "finished", ""


@cases(case("rb: the line hangs up behind its last ACK", receiver_behind_all))
def test_receiving(work):
    receiving(work)


def stored_with(at):
    """How many files are stored when this frame was taken."""
    return PLACES[at][2] + PLACES[at][0].startswith("the second EOT")


LAST = len(PLACES) - 1


@cases(
    *(
        case(
            "rb: the line hangs up in the write of the reply to " + name,
            at,
            stored_with(at),
            "finished" if at == LAST else "running",
        )
        for at, (name, _, _) in enumerate(PLACES)
    )
)
def test_receiver_in_a_write(at, count, state):
    """The plug is pulled while the receiver waits in the write of the reply to this frame. Of one
    that has got all that there is only the fault is told."""

    def work(end, child, receiver):
        given(end, receiver, at)
        end.hold()
        end.sendall(PLACES[at][1])
        waits_in(child.pid, WRITE, end.it.path)
        end.it.pull()
        return 3, count, state, FAILED if state == "running" else "fault: device\n"

    receiving(work)
