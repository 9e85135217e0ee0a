"""Files that `ymodem explain` cannot read, and the reason that it gives."""

import os
import tempfile

from support.cases import case, cases, sentence
from support.explained import DATA, explained, record_of, told, ways


def is_refused(says, *words, status=1, **how):
    """These words end with this status, and with a line that says this."""
    done = explained(*words, **how)
    assert done.returncode == status, "status %d: %r" % (done.returncode, done.stderr)
    assert done.stderr == says + "\n", "it said %r" % done.stderr


@cases(
    case("why a folder is not told", ()),
    case("why a folder is not told, as what the sender wrote", ("--there",)),
    case("why a folder is not told, as what the receiver wrote", ("--back",)),
)
def test_a_folder(words):
    with tempfile.TemporaryDirectory() as folder:
        is_refused("cannot read '%s': not a regular file" % folder, *words, folder)


@sentence("why one of two files is not told")
def test_one_of_two():
    """The one that cannot be read is named, and the other one is not."""
    path = record_of("whole")[0]
    with tempfile.TemporaryDirectory() as folder:
        says = "cannot read '%s': not a regular file" % folder
        for words in (("--there", folder, "--back", path), ("--there", path, "--back", folder)):
            is_refused(says, *words)


@sentence("why a path through a file is not told")
def test_no_folder():
    path = os.path.join(record_of("whole")[0], "it.record")
    is_refused("cannot open '%s': not a directory" % path, path)


@sentence("standard input that cannot be read is named")
def test_standard_input():
    """What is read there is no file of the program's: it has no reason of its own."""
    fd = os.open(DATA, os.O_RDONLY)
    try:
        is_refused("cannot read 'standard input'", "-", stdin=fd)
    finally:
        os.close(fd)


# ---- Ways that are not turned


@sentence("--turned of a record is said to change nothing")
def test_turned_record():
    """A record is told as without it, and a line says so. Where none is told, none does."""
    path = record_of("whole")[0]
    done = explained("--turned", path)
    assert done.returncode == 0, "status %d" % done.returncode
    assert done.stdout.splitlines() == told(path), "another telling"
    says = "'%s' is a record, which says its ways: --turned changed nothing\n" % path
    assert done.stderr == says, "it said %r" % done.stderr


@cases(
    case("--turned of files of bytes is refused: of both ways", ("there", "back")),
    case("--turned of files of bytes is refused: of the sender's", ("there",)),
    case("--turned of files of bytes is refused: of the receiver's", ("back",)),
)
def test_turned_files(named):
    data = dict(zip(("there", "back"), ways(record_of("whole")[2])))
    with tempfile.TemporaryDirectory() as folder:
        words = ["--turned"]
        for name in named:
            path = os.path.join(folder, name)
            with open(path, "wb") as it:
                it.write(data[name])
            words += ["--" + name, path]
        says = "files of bytes are not turned: swap --there and --back"
        is_refused(says, *words, status=2)
