"""What `ymodem judge` lists and refuses, and what it tells where nobody is there."""

import socket
import subprocess

from support.cases import case, cases, sentence
from support.judged import COUNTS
from support.program import LIMIT, PROGRAM, free_port


def judge(*words):
    """How `ymodem judge` ended with these words."""
    return subprocess.run(
        [PROGRAM, "judge", *words], capture_output=True, text=True, timeout=LIMIT, check=False
    )


@sentence("judge: lists its cases")
def test_lists_its_cases():
    for kind, count in COUNTS.items():
        done = judge(kind, "--list")
        assert done.returncode == 0, "status %d" % done.returncode
        names = done.stdout.splitlines()
        are_all = len(names) == len(set(names)) == count
        assert are_all, "%d names of a %s" % (len(names), kind)


ONE_OF_THEM = "judge takes --port or --line, and one of them\n"
# Words, where P is a port, and what is said of them.
REFUSED = (
    ("other --port P", "judge takes `sender` or `receiver`, and not 'other'\n"),
    ("sender", ONE_OF_THEM),
    ("sender --port P --line /dev/null", ONE_OF_THEM),
    ("sender --port 0", "fault: port\n"),
    (
        "receiver --port P --only nothing",
        "no case of a receiver is called 'nothing'; judge receiver --list names them\n",
    ),
)


@sentence("judge: refuses words")
def test_refuses_words():
    """Words that are refused, and what is said of them."""
    port = str(free_port())
    for words, said in REFUSED:
        done = judge(*(port if it == "P" else it for it in words.split()))
        ended = (done.returncode, done.stdout, done.stderr)
        assert ended == (2, "", said), "%r: %r" % (words, ended)


DEVICE = "fault: device\n"


@cases(
    case("judge: a line that is missing", "/nowhere/tty", "no such device"),
    case("judge: a line that is another device", "/dev/null", "it is no terminal"),
)
def test_lines_that_cannot_be_opened(line, why):
    for kind in COUNTS:
        done = judge(kind, "--line", line)
        ended = (done.returncode, done.stdout, done.stderr)
        assert ended == (3, "", "cannot open '%s': %s\n%s" % (line, why, DEVICE)), ended


@sentence("judge: a port that another program has")
def test_port_in_use():
    with socket.create_server(("127.0.0.1", 0)) as other:
        port = other.getsockname()[1]
        done = judge("sender", "--port", str(port))
    said = "port %d is in use by another program: choose another one\n%s" % (port, DEVICE)
    ended = (done.returncode, done.stdout, done.stderr)
    assert ended == (3, "", said), ended


@sentence("judge: nobody is there")
def test_nobody_is_there():
    """Where nobody listens the case ends by itself, and says so."""
    done = judge("receiver", "--port", str(free_port()), "--only", "plain")
    lines = done.stdout.splitlines()
    assert done.returncode == 1 and lines[0].endswith(": no answer"), "%r" % done
    assert lines[1:] == [
        "avoid plain: it does not answer",
        "0 conform, 0 differ (harmless), 0 lose data, 1 left open",
    ], (
        "%r" % lines
    )
    assert done.stderr == "start the peer: plain\n", repr(done.stderr)
