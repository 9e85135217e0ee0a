"""Parts and names in the folder of `receive`, and files that change before `send` has read them."""

import contextlib
import fcntl
import os
import random

import pytest
from support.cases import case, cases, sentence
from support.other_user import handed_over
from support.peers import PlainReceiver, receive_plainly, send_to
from support.program import folders, wants_same, wants_stored, write_files
from support.storing import PART, Meanwhile, part_of, received, refused, told
from support.tracing import strace


pytestmark = pytest.mark.steadily

DATA = random.Random(4).randbytes(5000)
FILE = [("first", DATA)]
# As long as a name may be: the front that its part's name has, and the ending of that.
OWN_PART = (250 * "n" + ".part", DATA)
PART_OF_FILE = (part_of("first"), b"left")
DISCARD = ["--discard-parts"]
FAULT = "fault: device\n"
# A file, and one that a disk without upper and lower case has under the name of its part.
TAKEN_FOR_PARTS = {
    "in another case": ("first", "FIRST.Part"),
    "with a dot behind it": ("first", "first.part."),
    "in another case of Unicode": ("\u00e4", "\u00c4.part"),
    "with a character that has no width": ("first", "first.pa\u200crt"),
}

# Its frames: block 0, and then its blocks. By the third of them the part is there and is not whole.
IN_THE_FILE = 3


@cases(
    case("parts: without the flag it is refused", FILE, 0, [], [(part_of("first"), b"left")]),
    case(
        "parts: a NAME that is there is refused with the flag too",
        FILE,
        0,
        DISCARD,
        [("first", b"old")],
    ),
    case(
        "parts: a file of the batch that is named as a part is none",
        [(part_of("first"), b"a file"), *FILE],
        1,
        DISCARD,
    ),
    *(
        case(
            "parts: a file of the batch that is named as a part %s is none" % how,
            [(stored_as, b"a file"), (name, DATA)],
            1,
            DISCARD,
            [(part_of(name), b"a file")],
        )
        for how, (name, stored_as) in TAKEN_FOR_PARTS.items()
    ),
    case("parts: a NAME of 255 bytes that would be its own part's", [OWN_PART], 0),
)
def test_refuses(files, count, flags=(), there_is=()):
    """So many files of the batch are stored, and what was in the folder stays."""
    with folders() as (_, there):
        write_files(there, there_is)
        ended, _ = received(files, there, flags)
        ended.wants(3, refused(count, files), FAULT)
        wants_stored(there, [*files[:count], *there_is])


@cases(
    case("parts: a link is none", os.symlink),
    case("parts: a folder is none", lambda _, part: os.mkdir(part)),
    case("parts: a pipe is none", lambda _, part: os.mkfifo(part)),
)
def test_no_file(make):
    """What is no regular file is no part, and is not discarded."""
    with folders() as (here, there):
        (other,) = write_files(here, [("other", b"other")])
        part = os.path.join(there, part_of("first"))
        make(other, part)
        before = os.lstat(part)
        ended, _ = received(FILE, there, DISCARD)
        ended.wants(3, refused(0, FILE), FAULT)
        assert (
            os.listdir(there) == [part_of("first")] and os.lstat(part).st_ino == before.st_ino
        ), "it left %s" % ", ".join(sorted(os.listdir(there)))
        wants_stored(here, [("other", b"other")])


@sentence("parts: one that is locked is in use")
def test_locked_part():
    """A part that somebody has locked is in use."""
    with folders() as (_, there):
        (path,) = write_files(there, [(part_of("first"), b"in use")])
        with open(path, "rb") as part:
            fcntl.flock(part, fcntl.LOCK_EX)
            received(FILE, there, DISCARD)[0].wants(3, refused(0, FILE), FAULT)
            wants_stored(there, [(part_of("first"), b"in use")])
        received(FILE, there, DISCARD)[0].wants(0, told(FILE))
        wants_stored(there, FILE)


@cases(
    case("parts: one that may only be read is discarded", 0o444, []),
    case("parts: one that may only be read, and is locked, stays", 0o444, [PART_OF_FILE], True),
    case("parts: one that may not be opened stays", 0o000, [PART_OF_FILE]),
)
def test_closed_part(mode, stays, is_locked=False):
    """Of a part that may not be written it is told whether it is locked where it may be read."""
    with folders() as (_, there):
        (path,) = write_files(there, [PART_OF_FILE])
        os.chmod(path, mode)
        words = handed_over(there, path)
        with contextlib.ExitStack() as until:
            if is_locked:
                part = until.enter_context(open(path, "rb"))
                fcntl.flock(part, fcntl.LOCK_EX)
            ended, _ = received(FILE, there, DISCARD, words)
        if stays:
            os.chmod(path, 0o600)
            ended.wants(3, refused(0, FILE), FAULT)
        else:
            ended.wants(0, told(FILE))
        wants_stored(there, stays or FILE)


@sentence("parts: one that may not be opened is named")
def test_closed_part_is_named():
    """It is told which part it is, and what to do with it."""
    with folders() as (_, there):
        (path,) = write_files(there, [PART_OF_FILE])
        os.chmod(path, 0o000)
        words = handed_over(there, path)
        ended, _ = received(FILE, there, [*DISCARD, "--verbose"], words)
        os.chmod(path, 0o600)
        wants_stored(there, [PART_OF_FILE])
    wants_same({"status": ended.status}, {"status": 3})
    why = "'%s' is in use by another program, may not be read, is no" % part_of("first")
    assert why in ended.err and "move it away" in ended.err, "it told %r" % ended.err


@cases(
    case("parts: two receivers of one name", []),
    case("parts: two receivers of one name, --discard-parts", DISCARD),
)
def test_two_receivers(flags):
    """While one receiver is within a file, another one is sent a file of that name: it is refused,
    and the first one goes on."""
    with folders() as (_, there):
        other = [("first", b"other" * 300)]

        def meanwhile():
            received(other, there, flags)[0].wants(3, refused(0, other), FAULT)

        ended, _ = received(FILE, there, flags, meanwhile=Meanwhile(IN_THE_FILE, meanwhile))
        ended.wants(0, told(FILE))
        wants_stored(there, FILE)


@sentence("parts: two receivers of other names")
def test_two_batches():
    """Two receivers at once, with other names: each of them stores all of its own."""
    with folders() as (_, there):
        other = [("second", DATA[:3000]), ("third", b"")]

        def meanwhile():
            received(other, there, DISCARD)[0].wants(0, told(other))

        ended, _ = received(FILE, there, DISCARD, meanwhile=Meanwhile(IN_THE_FILE, meanwhile))
        ended.wants(0, told(FILE))
        wants_stored(there, [*FILE, *other])


def by_symbolic_link(other, part):
    os.unlink(part)
    os.symlink(other, part)


def by_hard_link(other, part):
    os.unlink(part)
    os.link(other, part)


def by_another_file(_, part):
    os.unlink(part)
    with open(part, "wb") as it:
        it.write(DATA)


@cases(
    case("parts: one that was replaced by a symbolic link", by_symbolic_link),
    case("parts: one that was replaced by a hard link", by_hard_link),
    case("parts: one that was replaced by another file", by_another_file),
)
def test_replaced_part(replace):
    """Somebody puts something else in the place of a part while it is written: that gets no name,
    and stays."""
    with folders() as (here, there):
        (other,) = write_files(here, [("other", b"other" * 100)])
        part = os.path.join(there, part_of("first"))
        ended, _ = received(
            FILE, there, meanwhile=Meanwhile(IN_THE_FILE, lambda: replace(other, part))
        )
        ended.wants(3, refused(0, FILE), FAULT)
        assert not os.path.lexists(
            os.path.join(there, "first")
        ), "what stood in the place of the part got its name"
        wants_stored(here, [("other", b"other" * 100)])


@sentence("parts: a NAME that is made meanwhile")
def test_taken_name():
    """Somebody makes the name while the part is written: it is not overwritten."""
    with folders() as (_, there):
        made = [("first", b"made meanwhile")]
        ended, _ = received(
            FILE, there, meanwhile=Meanwhile(IN_THE_FILE, lambda: write_files(there, made))
        )
        ended.wants(3, refused(0, FILE), FAULT)
        wants_stored(there, made)


@sentence("parts: a NAME that is made meanwhile, without hard links")
def test_taken_name_without_links():
    """The same on a file system without hard links."""
    with folders() as (log, there):
        made = [("first", b"made meanwhile")]
        no_links = strace(os.path.join(log, "log"), "-e", "inject=link,linkat:error=EPERM")
        meanwhile = Meanwhile(IN_THE_FILE, lambda: write_files(there, made))
        ended, _ = received(FILE, there, before=no_links, meanwhile=meanwhile)
        ended.wants(3, refused(0, FILE), FAULT)
        wants_stored(there, made)


@sentence("parts: one that gets no name, without hard links")
def test_no_name_is_given():
    """Without hard links a name is made, and the part renamed over it: where that fails, the name
    is taken away again."""
    with folders() as (log, there):
        refused_calls = (
            "-e",
            "inject=link,linkat:error=EPERM",
            "-e",
            "inject=rename,renameat,renameat2:error=EIO",
        )
        ended, _ = received(FILE, there, before=strace(os.path.join(log, "log"), *refused_calls))
        ended.wants(3, refused(0, FILE), FAULT)
        wants_stored(there, [])


@sentence("a FILE that is a link is sent")
def test_linked_source():
    """A FILE that is a link to one is sent, under the link's own name."""
    with folders() as (here, _):
        (path,) = write_files(here, [("elsewhere", DATA)])
        link = os.path.join(here, "first")
        os.symlink(path, link)
        receiver = PlainReceiver()
        ended = send_to(lambda end: receive_plainly(end, receiver), None, paths=[link])
        ended.wants(0, "sender done 1 finished\n")
        wants_same(receiver.kept, {"first": DATA})


@sentence("parts: one that was removed")
def test_lost_part():
    """Somebody removes the part while it is written."""
    with folders() as (_, there):
        part = os.path.join(there, part_of("first"))
        ended, _ = received(FILE, there, meanwhile=Meanwhile(IN_THE_FILE, lambda: os.unlink(part)))
        ended.wants(3, refused(0, FILE), FAULT)
        wants_stored(there, [])


def long_names():
    """Names of all the lengths around which NAME.part is too long, of one byte, two, three and four
    for each character."""
    files = []
    for letter in ("n", "ü", "語", "𝄞"):
        for length in range(249, 256):
            count, rest = divmod(length, len(letter.encode()))
            files.append(("-" * rest + letter * count, b"%d" % length * length))
    return files


@cases(
    case("parts: one of an earlier run is discarded", FILE, DISCARD, [(part_of("first"), b"left")]),
    case(
        "parts: one of an earlier run that is longer than the file",
        FILE,
        DISCARD,
        [(part_of("first"), DATA * 3)],
    ),
    case(
        "parts: only that of a name that comes is discarded",
        FILE,
        DISCARD,
        [("other" + PART, b"left")],
        [("other" + PART, b"left")],
    ),
    case(
        "parts: one of an earlier run is discarded, behind files of other names",
        [("other" + PART, b"a file"), ("\u00e4.par", b"a file"), *FILE],
        DISCARD,
        [(part_of("first"), b"left")],
    ),
    case("names of 249 to 255 bytes", long_names()),
    case(
        "names of 249 to 255 bytes, --no-sync --discard-parts",
        long_names(),
        ["--no-sync", *DISCARD],
        [(part_of("n" * 255), b"left")],
    ),
)
def test_stores(files, flags=(), there_is=(), stays=()):
    """All of the batch is stored, where these files were in the folder, of which some stay."""
    with folders() as (_, there):
        write_files(there, there_is)
        ended, _ = received(files, there, flags)
        ended.wants(0, told(files))
        wants_stored(there, [*files, *stays])


def shrinks(path, data):
    os.truncate(path, len(data) - 1)


def grows(path, data):
    os.truncate(path, len(data) + 1)


def is_replaced(path, data):
    """Another file of the same length."""
    with open(path + ".new", "wb") as it:
        it.write(data[::-1])
    os.replace(path + ".new", path)


def vanishes(path, _):
    os.unlink(path)


def becomes_pipe(path, _):
    os.unlink(path)
    os.mkfifo(path)


@cases(
    case("a file that shrinks before its first block", shrinks),
    case("a file that grows before its first block", grows),
    case("a file that is replaced before its first block", is_replaced),
    case("a file that vanishes before its first block", vanishes),
    case("a file in whose place a pipe comes before its first block", becomes_pipe),
)
def test_changed_source(change, size=5000):
    """A file that changes after `send` has looked at it, and before its first block."""
    data = random.Random(6).randbytes(size)
    with folders() as (here, _):
        (path,) = write_files(here, [("changing", data)])
        receiver = PlainReceiver()

        def peer(end):
            change(path, data)
            receive_plainly(end, receiver)

        ended = send_to(peer, None, paths=[path])
        ended.wants(3, "sender done 0 source-failed\n", FAULT)
        assert not receiver.kept, "it was sent all the same"
