"""Where `ymodem explain --chart` writes no chart: none is left, and a line says why."""

import os
import tempfile

from support.cases import case, cases, sentence
from support.explained import explained, record_of, told

TO_OUTPUT = "standard output has what is told: name a file for the chart (./- is one called -)\n"


def is_unmade(chart, *words):
    """No chart is made of what these words name, and the next try of a record makes one."""
    done = explained("--chart", chart, *words)
    assert done.returncode == 1 and done.stderr and not done.stdout, "it ended as %r" % done
    assert not os.path.exists(chart), "there is a chart of nothing"
    told("--chart", chart, record_of("whole")[0])
    assert os.path.exists(chart), "the next try made none"


@cases(
    case("no chart of nothing: a file that is missing", None),
    case("no chart of nothing: no line of a record", b"this is none\n"),
    case("no chart of nothing: the first bytes of a capture", b"\xd4\xc3\xb2\xa1"),
    case("no chart of nothing: a pcapng capture", b"\x0a\x0d\x0d\x0a" + bytes(24)),
)
def test_of_nothing(data):
    with tempfile.TemporaryDirectory() as folder:
        path = os.path.join(folder, "it")
        if data is not None:
            with open(path, "wb") as it:
                it.write(data)
        is_unmade(os.path.join(folder, "it.svg"), path)


@sentence("no chart of nothing: a folder")
def test_of_a_folder():
    with tempfile.TemporaryDirectory() as folder:
        is_unmade(os.path.join(folder, "it.svg"), folder)


@sentence("no chart of nothing: one of two files is missing")
def test_of_two_files():
    with tempfile.TemporaryDirectory() as folder:
        missing = os.path.join(folder, "missing")
        words = ("--there", record_of("whole")[0], "--back", missing)
        is_unmade(os.path.join(folder, "it.svg"), *words)


@sentence("a chart of a capture that is empty says so")
def test_of_an_empty_record():
    """An empty record is told whole, by its last sentence alone, and so it is drawn."""
    with tempfile.TemporaryDirectory() as folder:
        chart = os.path.join(folder, "it.svg")
        told("--chart", chart, os.devnull)
        with open(chart, encoding="ascii") as it:
            assert "no receiver asked for a file" in it.read(), "the sentence is not drawn"


@sentence("no chart goes to standard output by -")
def test_to_standard_output():
    """`-` is refused as other words are, with what to do, and no file of that name is made."""
    path = record_of("whole")[0]
    with tempfile.TemporaryDirectory() as folder:
        done = explained("--chart", "-", path, cwd=folder)
        assert done.returncode == 2, "status %d" % done.returncode
        assert done.stderr == TO_OUTPUT and not done.stdout, "it ended as %r" % done
        assert not os.listdir(folder), "there is %r" % os.listdir(folder)
        told("--chart", "./-", path, cwd=folder)
        assert os.listdir(folder) == ["-"], "there is %r" % os.listdir(folder)
