"""The charts that `ymodem explain --chart` draws, against what it tells.

Which arrow has which way, name and words is taken from the lines that are told, by the rule of
docs/explain.md. What a picture shows is read from it by Python's reader of XML
(support/drawn_charts.py).
"""

import contextlib
import os
import re
import subprocess
import tempfile
import xml.etree.ElementTree as ET

from support.bounds import writing
from support.cases import case, cases, sentence
from support.drawn_charts import ROWS, RUN, SVG, read, rows_of, shown
from support.explained import DATA, crc, record_of, recorded, ways, within_bounds
from support.frames import block, header
from support.program import LIMIT, PROGRAM, ROOT


def run(*words, before=(), **how):
    how = {"stdin": subprocess.DEVNULL, "stdout": subprocess.PIPE, **how}
    words = [*before, PROGRAM, "explain", *words]
    return subprocess.run(words, stderr=subprocess.PIPE, timeout=LIMIT, check=False, **how)


@contextlib.contextmanager
def drawn(*words):
    """What is told of a capture, and the path of its chart."""
    with tempfile.TemporaryDirectory() as folder:
        path = os.path.join(folder, "it.svg")
        done = run("--chart", path, *words)
        assert done.returncode == 0, "status %d: %r" % (done.returncode, done.stderr[-300:])
        assert not done.stderr, "standard error has %r" % done.stderr[-300:]
        yield done.stdout, path


def are_as_told(told, path):
    """The rows of a chart, which are those that the lines that are told call for."""
    rows, ends = rows_of(told.splitlines())
    drawn_rows, drawn_ends = read(path)
    for one, other in zip(rows, drawn_rows):
        assert one == other, "wanted %r, drawn is %r" % (one, other)
    assert len(rows) == len(drawn_rows), "%d rows are drawn of %d" % (len(drawn_rows), len(rows))
    assert ends == drawn_ends, "wanted %r at the end, drawn is %r" % (ends, drawn_ends)
    return rows


@cases(*(case("the chart of a recorded session: " + name, name) for name in recorded()))
def test_is_drawn(name):
    path = record_of(name)[0]
    with drawn(path) as (told, chart):
        plain = run(path)
        assert told == plain.stdout, "another telling with a chart"
        are_as_told(told, chart)


# ---- Records that are made here


def record(pieces):
    """A record of pieces, each a way and bytes, a millisecond apart."""
    return "".join(
        "%d.%06d %s %s\n" % (at // 1000, at % 1000 * 1000, way, data.hex())
        for at, (way, data) in enumerate(pieces)
    )


@contextlib.contextmanager
def written(text, name="it.record"):
    """A file with this text, and a path beside it."""
    with tempfile.TemporaryDirectory() as folder:
        path = os.path.join(folder, name)
        with open(path, "w", encoding="ascii") as it:
            it.write(text)
        yield path, os.path.join(folder, "it.svg")


def told_of(pieces):
    """The rows of a record of these pieces, drawn as told, and the bytes of the chart."""
    with written(record(pieces)) as (path, _), drawn(path) as (told, chart):
        rows = are_as_told(told, chart)
        with open(chart, "rb") as it:
            return rows, it.read()


def blocks(count):
    """Blocks in their turn, each with its answer behind it."""
    found = []
    for number in range(1, count + 1):
        found += [(">", block(number, b"x" * 128)), ("<", b"\x06")]
    return found


def zero(name):
    return header(name, b"1000000")


# What a session begins with.
HEAD = [("<", b"C"), (">", zero(b"a")), ("<", b"\x06C")]

HOSTILE = (
    b"<script>alert(1)</script>",
    b"a\"b'c&d>e",
    b"]]><x>&amp;&#60;",
    "\u202egnp.exe".encode(),
    "gr\u00fc\u00dfe\uffff.txt".encode(),
)


def is_bare(text):
    """Nothing but printed ASCII stands in the file, and no tag that is not the chart's own."""
    odd = sorted({it for it in text if not (0x20 <= it <= 0x7E or it == 10)})
    assert not odd, "there are the bytes %r" % odd
    tags = set(re.findall(rb"</?([a-zA-Z]\w*)", text))
    own = {b"svg", b"title", b"style", b"rect", b"text", b"path", b"g"}
    assert tags <= own, "the tags are %r" % tags


@sentence("a hostile name of a file is text in a chart")
def test_hostile_names():
    for hostile in HOSTILE:
        name = hostile.replace(b"/", b"|")
        rows, text = told_of([("<", b"C"), (">", zero(name)), ("<", b"\x06C")])
        note = ("note", "file %s, 1000000 bytes" % shown(name))
        assert note in rows, "%r is not in %r" % (name, rows)
        is_bare(text)


@sentence("hostile bytes are text in a chart")
def test_hostile_bytes():
    junk = b"<script>\x00\x07\x1b[31m&\"'\xff\xfe]]>-->"
    for way in "<>":
        _, text = told_of([(way, junk), ("<", b"C")])
        is_bare(text)


@sentence("a run of blocks is one row")
def test_a_run():
    """Three blocks have six arrows, and four are one row, also where their numbers begin anew."""
    for count in (1, 3, 4, 5, 118, 300):
        rows, _ = told_of(HEAD + blocks(count))
        runs = [it for it in rows if it[0] == "run"]
        assert len(runs) == (count >= RUN), "%d blocks: %r" % (count, runs)
        if runs:
            texts = ("blocks 1 to %d, each acknowledged" % (count % 256), "%d blocks" % count)
            assert runs[0][2:] == texts, "%r" % (runs,)
        else:
            assert len(rows) == 5 + 2 * count, "%d blocks have %d rows" % (count, len(rows))


@sentence("a run ends where something goes wrong")
def test_a_run_ends():
    """A block that comes again stands between two runs, and is not in them."""
    first, second = blocks(9), blocks(18)[18:]
    again = [(">", block(9, b"x" * 128)), ("<", b"\x06")]
    rows, _ = told_of(HEAD + first + again + second)
    runs = [it[2] for it in rows if it[0] == "run"]
    wanted = ["blocks 1 to 9, each acknowledged", "blocks 10 to 18, each acknowledged"]
    assert runs == wanted, "%r" % runs


@sentence("500 rows are drawn at most")
def test_a_long_chart():
    """Of more rows than 500 the rest is counted, and the end is told all the same."""
    with written(record([("<", b"C")] * (ROWS + 200))) as (path, _), drawn(path) as (told, chart):
        rows, ends = rows_of(told.splitlines())
        drawn_rows, drawn_ends = read(chart)
    assert len(rows) > ROWS, "only %d rows are told" % len(rows)
    assert drawn_rows[:-1] == rows[:ROWS], "the first rows are others"
    last = ("run", "%d more are not drawn" % (len(rows) - ROWS))
    assert drawn_rows[-1] == last, "the last row is %r" % (drawn_rows[-1],)
    assert drawn_ends == ends, "%r at the end" % drawn_ends


@sentence("a record of 100 MB is drawn in seconds and little memory")
def test_a_long_record():
    """100 MB of one way, and of a record, are drawn within the bounds of what is told alone."""
    body = bytes(range(256)) * 4
    behind = body + crc(body)
    with tempfile.TemporaryDirectory() as folder:
        path, chart = os.path.join(folder, "long"), os.path.join(folder, "it.svg")
        with open(path, "w", encoding="ascii") as it:
            for at in range(49000):
                number = at % 256
                frame = bytes((2, number, 255 - number)) + behind
                it.write("%d.%06d > %s\n" % (at // 100, at % 100 * 10000, frame.hex()))
                it.write("%d.%06d < 06\n" % (at // 100, at % 100 * 10000 + 5000))
        assert os.path.getsize(path) > 10**8, "the record has %d bytes" % os.path.getsize(path)
        within_bounds("--chart", chart, path)
        assert os.path.getsize(chart) < 10**6, "the chart has %d bytes" % os.path.getsize(chart)
        read(chart)


@sentence("two files of bytes are drawn")
def test_two_files():
    """Two files of bytes tell no moments, and have no moments in their chart."""
    with tempfile.TemporaryDirectory() as folder:
        paths = [os.path.join(folder, it) for it in ("there", "back")]
        for path, data in zip(paths, ways(record_of("whole-short-blocks")[2])):
            with open(path, "wb") as it:
                it.write(data)
        with drawn("--there", paths[0], "--back", paths[1]) as (told, chart):
            rows = are_as_told(told, chart)
    assert all(it[1] == "" for it in rows if it[0] != "note"), "there are moments"


# ---- Where it cannot be written: what is told is told, and a line names the file.


def is_unwritten(chart, says):
    """How it ends where the chart cannot be written: the telling is whole, and a line says why."""
    path = record_of("damage-mended")[0]
    plain = run(path)
    done = run("--chart", chart, path)
    assert done.stdout == plain.stdout, "another telling"
    assert done.returncode == 1, "status %d" % done.returncode
    assert done.stderr.decode() == says + "\n", "standard error has %r" % done.stderr


@sentence("a file that is there is not overwritten")
def test_a_file_that_is_there():
    with written("mine", "it.svg") as (path, _):
        is_unwritten(path, "'%s' is there already: no chart is written" % path)
        with open(path, encoding="ascii") as it:
            assert it.read() == "mine", "the file was overwritten"


@sentence("a record is not overwritten by its chart")
def test_in_place_of_its_record():
    text = record_of("whole")[2]
    with written(text) as (path, _):
        done = run("--chart", path, path)
        assert done.returncode == 1, "status %d" % done.returncode
        with open(path, encoding="ascii") as it:
            assert it.read() == text, "the record was overwritten"


@sentence("no chart: a folder that is missing")
def test_in_no_folder():
    with tempfile.TemporaryDirectory() as folder:
        path = os.path.join(folder, "none", "it.svg")
        is_unwritten(path, "cannot write the chart '%s': no such file or directory" % path)


@sentence("no chart: a folder in its place")
def test_in_place_of_a_folder():
    with tempfile.TemporaryDirectory() as folder:
        is_unwritten(folder, "cannot write the chart '%s': not a regular file" % folder)


@sentence("no chart: a folder that cannot be written")
def test_in_a_folder_of_the_system():
    done = run("--chart", "/proc/it.svg", record_of("whole")[0])
    assert done.returncode == 1, "status %d" % done.returncode
    begins = b"cannot write the chart '/proc/it.svg': "
    assert done.stderr.startswith(begins), "standard error has %r" % done.stderr


@sentence("no chart: a full disk")
def test_on_a_full_disk():
    is_unwritten("/dev/full", "cannot write the chart '/dev/full': no space left on device")


@sentence("no part of a chart is left")
def test_no_part_is_left():
    """Where a file may have 1000 bytes, the chart cannot be written, and no part of it is left."""
    with tempfile.TemporaryDirectory() as folder:
        path = os.path.join(folder, "it.svg")
        done = run("--chart", path, record_of("whole")[0], before=writing(1000))
        assert done.returncode == 1, "status %d: %r" % (done.returncode, done.stderr)
        assert b"cannot write the chart" in done.stderr, "standard error has %r" % done.stderr
        assert not os.path.exists(path), "a part of it is left"


@sentence("a chart goes to a pipe")
def test_a_pipe():
    done = run("--chart", "/dev/stderr", record_of("whole")[0])
    assert done.returncode == 0, "status %d" % done.returncode
    assert ET.fromstring(done.stderr).tag == SVG + "svg", "no picture came"


@sentence("a record that cannot be read to its end is drawn so far")
def test_a_record_with_a_fault():
    """Of a record with a line that cannot be read, what stands before it is told and drawn."""
    text = record([("<", b"C"), (">", zero(b"a")), ("<", b"\x06")]) + "0.1 > xyz\n"
    with written(text) as (path, chart):
        done = run("--chart", chart, path)
        assert done.returncode == 1, "status %d" % done.returncode
        are_as_told(done.stdout, chart)


@sentence("refused words draw nothing")
def test_refused_words():
    with tempfile.TemporaryDirectory() as folder:
        chart = os.path.join(folder, "it.svg")
        done = run("--chart", chart, "--there", "a", "b")
        assert done.returncode == 2, "status %d" % done.returncode
        assert not os.path.exists(chart), "a chart was written"


@sentence("the picture of the page is of today")
def test_the_picture():
    """The picture that docs/explain.md shows is the chart of its session today."""
    with drawn(os.path.join(DATA, "receiver-cancels.record")) as (_, chart):
        with open(chart, "rb") as it:
            today = it.read()
    with open(os.path.join(ROOT, "docs", "pictures", "explained.svg"), "rb") as it:
        assert it.read() == today, "docs/pictures/explained.svg is another chart"
