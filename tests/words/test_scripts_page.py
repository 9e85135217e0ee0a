"""The commands of docs/scripts.md, as they stand there.

Each is run, on a port that is free and with the program that is tested.
"""

import os
import re
import subprocess
import tempfile

from support.cases import sentence
from support.program import LIMIT, PROGRAM, ROOT, free_port, wants_same


PROGRAM_THERE = "crates/ymodem/out/ymodem"
# The page that shows a session from a script.
SCRIPTS = "docs/scripts.md"


def text_of(page):
    with open(os.path.join(ROOT, page), encoding="utf-8") as it:
        return it.read()


def line(page, words):
    """The page's only line that begins so, without its remark."""
    found = re.findall(r"^%s.*$" % re.escape(words), text_of(page), re.M)
    assert len(found) == 1, "%s has %d lines that begin with %r" % (page, len(found), words)
    return found[0].partition(" # ")[0].strip()


def started(words, folder):
    """A line of a page in a shell, in a folder."""
    how = {
        "stdin": subprocess.DEVNULL,
        "stdout": subprocess.PIPE,
        "stderr": subprocess.PIPE,
        "text": True,
    }
    script = 'ymodem() { "$YMODEM" "$@"; }; ' + words
    return subprocess.Popen(
        ["bash", "-c", script], cwd=folder, env={**os.environ, "YMODEM": PROGRAM}, **how
    )


def ended(child, words):
    try:
        out, err = child.communicate(timeout=LIMIT)
    except subprocess.TimeoutExpired:
        child.kill()
        child.communicate()
        raise AssertionError("%s never ended" % words) from None
    assert not child.returncode, "%s: status %d, %r" % (words, child.returncode, err)
    return out


@sentence("the session of docs/scripts.md")
def test_example():
    """The session that is shown is what the program prints."""
    found = re.search(r"^\$ (printf .*)\n((?:.+\n)+?)```", text_of(SCRIPTS), re.M)
    assert found and PROGRAM_THERE in found[1], "%s shows no session" % SCRIPTS
    words = found[1].replace(PROGRAM_THERE, "ymodem")
    with tempfile.TemporaryDirectory(prefix="ymodem-") as top:
        wants_same({"the session": ended(started(words, top), words)}, {"the session": found[2]})


@sentence("the line of docs/scripts.md to play over a connection")
def test_loop():
    words = line(SCRIPTS, "ymodem loop --port 4000").replace("4000", str(free_port()))
    with tempfile.TemporaryDirectory(prefix="ymodem-") as top:
        with open(os.path.join(top, "script"), "w", encoding="utf-8") as it:
            it.write("file a.txt 48656C6C6F\nok 6\n")
        wants_same(
            {"the end": ended(started(words, top), words).splitlines()[-1]},
            {"the end": "receiver files 1 finished"},
        )
