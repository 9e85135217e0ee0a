"""Transfers from the program to the program, over a relay that damages what it carries."""

import os
import random

from support.batches import few_files, thirty_files
from support.cases import case, cases, sentence
from support.claims import claim_of_receive, claim_of_send, wants_true
from support.end_to_end import Told, carried, transfer
from support.frames import EOT, START
from support.program import folders, free_port, run, running, wants_stored, write_files
from support.relay import Clean, Damage, Relay, Seeded, Watch


# Runs that finish


@cases(
    case("30 files, clean", []),
    case("30 files, clean, --short", ["--short"]),
    case("30 files, clean, --single", ["--single"]),
    case("30 files, clean, --short --single", ["--short", "--single"]),
)
def test_clean(flags):
    transfer(thirty_files(), Clean(), flags)


@cases(
    case("30 files, one delivery in 20 damaged", 1, 0.05, [], thirty_files(), 1),
    case("30 files, one delivery in 20 damaged, --short", 2, 0.05, ["--short"], thirty_files(), 1),
    case(
        "30 files, one delivery in 20 damaged, --single", 3, 0.05, ["--single"], thirty_files(), 1
    ),
    *(
        case(
            "5 files, every third delivery damaged, seed %d" % (seed + 20),
            seed + 20,
            0.33,
            flags,
            thirty_files()[seed * 5 : seed * 5 + 5],
            1,
        )
        for seed, flags in enumerate(([], ["--short"], ["--single"], ["--short", "--single"], []))
    ),
    *(
        case("3 files, most deliveries damaged, seed %d" % seed, seed, 0.7, flags, few_files(), 3)
        for seed, flags in ((6, []), (7, ["--short"]), (8, ["--single"]), (9, []))
    ),
)
def test_damaged(seed, share, flags, files, least):
    """A line that damages so many of its deliveries, and in both ways; while the sender says one
    frame in no more bad rounds than the line promises, and once in `least`."""
    line = Seeded(seed, share, most=20)
    transfer(files, line, flags)
    assert (
        line.bad_frames
        and line.bad_replies
        and line.most_in_a_row <= line.longest
        and line.most_in_a_row >= least
    ), "the relay damaged %d frames, %d replies, %d in a row" % (
        line.bad_frames,
        line.bad_replies,
        line.most_in_a_row,
    )


@cases(
    case("3 files, most deliveries damaged, seed 10", 10, 0.7, ["--short", "--single"], few_files())
)
def test_heavily_damaged(seed, share, flags, files):
    """The same, where a sender may let the line clear for longer than its receiver goes on: what
    either end claims is so, whether both finish or not."""
    line = Seeded(seed, share, most=20)
    ends = carried(files, lambda port: Relay(line, port), flags)
    wants_true(files, ends.kept, [claim_of_send(ends.sent), claim_of_receive(ends.received, files)])


class Unfilled(Watch):
    """A line that damages one delivery in each way once, so that the ends have to wait for it to be
    quiet."""

    def __init__(self):
        super().__init__()
        self.damage = Damage(5)
        self.left = {
            "flip",
            "cut",
            "insert",
            "lose",
            "lose the reply",
            "cut the reply",
            "noise for a reply",
            "lose the NAK",
        }

    def is_time_for(self, way, block):
        if self.files != 1 or way not in self.left:
            return False
        is_there = self.is_at_data() and self.frame[1] == block
        if is_there:
            self.left.discard(way)
        return is_there

    def damaged_frame(self, frame):
        if self.is_time_for("flip", 1):
            return frame[:500] + bytes((frame[500] ^ 0x20,)) + frame[501:]
        if self.is_time_for("cut", 2):
            return frame[:700]
        if self.is_time_for("insert", 3):
            return b"\x00" + frame
        if self.is_time_for("lose", 4):
            return b""
        return frame

    def damaged_reply(self, reply):
        if self.is_header and "cut the reply" in self.left:
            self.left.discard("cut the reply")
            return reply[:1]
        if self.is_time_for("lose the reply", 5):
            return b""
        if self.is_time_for("noise for a reply", 6):
            return self.damage.noise(7)
        if self.frame == bytes((EOT,)) and "lose the NAK" in self.left:
            self.left.discard("lose the NAK")
            return b""
        return reply


@sentence("damage that the ends have to wait out")
def test_unfilled():
    line = Unfilled()
    transfer([("long", random.Random(3).randbytes(7000)), ("short", b"abc")], line)
    assert not line.left, "not done: " + ", ".join(sorted(line.left))


# Runs in which an end gives up


class Chosen(Watch):
    """A line that damages the frames and the replies that it is told to."""

    def __init__(self, frames=lambda _: False, replies=lambda _: False, lost=None):
        super().__init__()
        self.frames, self.replies, self.lost = frames, replies, lost
        self.damage = Damage(11)

    def damaged_frame(self, frame):
        return self.damage.frame(frame) if self.frames(self) else frame

    def damaged_reply(self, reply):
        if not self.replies(self):
            return reply
        return self.damage.reply(b"") if self.lost is None else self.lost


def at_block(times):
    """Block 2 of the second file, the first so many times that it is sent."""
    return (
        lambda line: line.files == 2
        and line.is_at_data()
        and line.frame[1] == 2
        and line.times <= times
    )


def at_second_eot(line):
    """The EOT of the second file that commits it, and all that repeat it."""
    return line.files == 2 and line.frame == bytes((EOT,)) and line.times >= 2


@sentence("nine bad deliveries of one block are survived")
def test_nine_bad_blocks():
    transfer(few_files(), Chosen(frames=at_block(9)))


@sentence("at the tenth the receiver gives up")
def test_ten_bad_blocks():
    transfer(
        few_files(),
        Chosen(frames=at_block(10)),
        told=Told((1, "cancelled"), (1, "too-many-errors"), 1, 1),
    )


@sentence("nine lost replies to one block are survived")
def test_nine_bad_replies():
    transfer(few_files(), Chosen(replies=at_block(9)))


@sentence("at the tenth the sender gives up")
def test_ten_bad_replies():
    transfer(
        few_files(),
        Chosen(replies=at_block(10)),
        told=Told((1, "no-reply"), (1, "cancelled"), 1, 1),
    )


@sentence("all replies behind a commit lost: stored, and not reported")
def test_bad_replies_behind_a_commit():
    """The receiver has the file, and the sender never hears of it."""
    transfer(
        few_files(),
        Chosen(replies=at_second_eot),
        told=Told((1, "no-reply"), (1, "cancelled"), 1, 2),
    )


@sentence("the last reply lost: all stored, and the connection closed")
def test_last_reply_lost():
    line = Chosen(replies=Watch.is_at_end_block, lost=b"")
    transfer(
        few_files(), line, told=Told((3, "running"), (0, "finished"), 3, 3, ("fault: closed\n", ""))
    )


@sentence("each ACK C behind a block 0 cut to a C")
def test_cut_replies():
    """Of each ACK C behind a block 0 only the C comes through, so that block is sent once more."""
    only_start = Chosen(
        replies=lambda line: line.times == 1 and (line.is_header and not line.is_at_end_block()),
        lost=bytes((START,)),
    )
    transfer(few_files(), only_start)


@sentence("no frame comes through")
def test_no_block_is_whole():
    transfer(
        few_files(),
        Chosen(frames=lambda _: True),
        told=Told((1, "cancelled"), (1, "too-many-errors"), 0, 0),
    )


# Files and folders


@cases(
    case("a NAME that is there", [("first", b"old")]),
    case("a NAME that is there, of the second file", [("second", b"old")], count=1),
    case("a NAME.part that is there", [("first.part", b"old")]),
)
def test_sink_refuses(there_is, names=("first", "second", "third"), count=0):
    files = [(name, data) for name, (_, data) in zip(names, few_files())]
    told = Told((1, "cancelled"), (3, "sink-failed"), count, count, ("", "fault: device\n"))
    transfer(files, Clean(), told=told, there_is=there_is)


@sentence("the same NAME twice in a batch")
def test_same_name_twice():
    with folders() as (here, there):
        os.mkdir(os.path.join(here, "below"))
        paths = write_files(here, [("same", b"one")]) + write_files(
            os.path.join(here, "below"), [("same", b"two")]
        )
        port = free_port()
        relay = Relay(Clean(), port)
        relay.start()
        with (
            running("receive", "--port", port, there) as receive,
            running("send", "--port", relay.port, *paths) as send,
        ):
            receive.ended().wants(
                3, "file same 3 - -\nreceiver files 1 sink-failed\n", "fault: device\n"
            )
            send.ended().wants(1, "sender done 1 cancelled\n")
        wants_stored(there, [("same", b"one")])


@cases(
    case("DIR is missing", lambda _, there: os.path.join(there, "missing")),
    case("DIR is a file", lambda here, _: os.path.join(here, "first")),
)
def test_into_no_folder(dir_of):
    """What is no folder is told at once: nobody has to connect."""
    with folders() as (here, there):
        write_files(here, [("first", b"x")])
        run("receive", "--port", free_port(), dir_of(here, there)).wants(3, "", "fault: device\n")
        wants_stored(there, [])


@sentence("a disk that is full")
def test_full_disk():
    """A folder that cannot take the file."""
    with folders() as (here, there):
        paths = write_files(here, [("first", b"x" * 9000)])
        port = free_port()
        relay = Relay(Clean(), port)
        relay.start()
        with (
            running("receive", "--port", port, there, before=FULL_DISK) as receive,
            running("send", "--port", relay.port, *paths) as send,
        ):
            receive.ended().wants(3, "receiver files 0 sink-failed\n", "fault: device\n")
            send.ended().wants(1, "sender done 0 cancelled\n")
        wants_stored(there, [])


class Changing(Watch):
    """A line under which the file that is sent changes when its first block has gone."""

    def __init__(self, change):
        super().__init__()
        self.change = change

    def damaged_frame(self, frame):
        if self.is_at_data() and frame[1] == 1 and self.times == 1:
            self.change()
        return frame


@cases(
    case(
        "a file that shrinks while it is sent",
        200_000,
        1500,
        (3, "sender done 0 source-failed\n"),
        (1, "receiver files 0 cancelled\n"),
        "fault: device\n",
        False,
    ),
    case(
        "a file that shrinks when all of it has been read",
        9000,
        1500,
        (0, "sender done 1 finished\n"),
        (0, "file changing 9000 - -\nreceiver files 1 finished\n"),
        "",
        True,
    ),
    case(
        "a file that grows while it is sent",
        9000,
        12000,
        (0, "sender done 1 finished\n"),
        (0, "file changing 9000 - -\nreceiver files 1 finished\n"),
        "",
        True,
    ),
)
def test_changes(size, new_size, told_send, told_receive, err, is_stored):
    """A file that gets another size while it is sent."""
    data = random.Random(2).randbytes(size)
    with folders() as (here, there):
        (path,) = write_files(here, [("changing", data)])
        port = free_port()
        relay = Relay(Changing(lambda: os.truncate(path, new_size)), port)
        relay.start()
        with (
            running("receive", "--port", port, there) as receive,
            running("send", "--port", relay.port, path) as send,
        ):
            receive.ended().wants(*told_receive)
            send.ended().wants(told_send[0], told_send[1], err)
        wants_stored(there, [("changing", data)] if is_stored else [])


def make_pipe(folder):
    path = os.path.join(folder, "pipe")
    os.mkfifo(path)
    return path


def make_odd_name(folder):
    (path,) = write_files(folder, [("odd\x01name", b"abc")])
    return path


@cases(
    case("FILE is missing", lambda here: os.path.join(here, "missing"), 3, "fault: device\n"),
    case("FILE is a folder", lambda here: here, 3, "fault: device\n"),
    case("FILE is a pipe", make_pipe, 3, "fault: device\n"),
    case("a FILE whose name has a control byte", make_odd_name, 2, "fault: name\n"),
)
def test_cannot_be_sent(make, status, err):
    """A file that is refused before anything goes out."""
    with folders() as (here, _):
        good = write_files(here, [("good", b"abc")])
        run("send", "--port", free_port(), *good, make(here)).wants(status, "", err)


FULL_DISK = ("sh", "-c", 'ulimit -f 4; trap "" XFSZ; exec "$@"', "sh")
