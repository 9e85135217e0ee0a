"""What each command prints and answers: sessions of scripts, words that ask for nothing, help, the
version, and what cannot be opened."""

import contextlib
import os
import socket

from support.cases import case, cases, sentence
from support.program import folders, free_port, run, running, write_files

ONE_FILE = """1 > - whole < C whole
2 > block 0 128 whole < ACK C whole
3 > block 1 128 whole < ACK whole
4 > eot whole < NAK whole
5 > eot whole < ACK C whole
6 > block 0 128 whole < ACK whole
sender done 1 finished
receiver files 1 finished
"""
TWO_EMPTY_FILES = """1 > - whole < C whole
2 > block 0 128 whole < ACK C whole
3 > eot whole < NAK whole
4 > eot whole < ACK C whole
5 > block 0 128 whole < ACK C whole
6 > eot whole < NAK whole
7 > eot whole < ACK C whole
8 > block 0 128 whole < ACK whole
sender done 2 finished
receiver files 2 finished
"""
LOST_LAST_ACKS = """1 > - whole < C whole
2 > block 0 128 whole < ACK C whole
3 > eot whole < NAK whole
4 > eot whole < ACK C lost
5 > eot whole < ACK C lost
6 > eot whole < ACK C lost
7 > eot whole < ACK C lost
"""
FOUR_LOST = "file a -\nok 3\n" + 4 * "round whole lost\n"
# A script, the status and the text that it comes to, and the fault line.
PLAYED = (
    ("file a.txt %s\nok 6\n" % (128 * "41"), 0, ONE_FILE, ""),
    ("file a -\nfile b -\nok 8\n", 0, TWO_EMPTY_FILES, ""),
    (FOUR_LOST, 1, LOST_LAST_ACKS + "sender done 0 running\nreceiver files 1 running\n", ""),
    (
        FOUR_LOST + "ok 2\n",
        0,
        LOST_LAST_ACKS
        + "8 > eot whole < ACK C whole\n"
        + "9 > block 0 128 whole < ACK whole\n"
        + "sender done 1 finished\nreceiver files 1 finished\n",
        "",
    ),
    ("foo\n", 2, "", "line 1: not a command\n"),
)
DEVICE = "fault: device\n"


@cases(
    case("a script without a word", ()),
    case("a script by play", ("play",)),
    case("a script by loop, over a connection", ("loop", "--port")),
)
def test_scripts(words):
    """The same text by a session in memory, with and without its word, and by one over a
    connection."""
    for script, *wanted in PLAYED:
        port = (free_port(),) if "loop" in words else ()
        run(*words, *port, given=script.encode()).wants(*wanted)


@sentence("each line that is printed is one write")
def test_lines_are_writes():
    """What several receivers write into one log stays lines. The socket keeps writes apart."""
    ours, its = socket.socketpair(socket.AF_UNIX, socket.SOCK_SEQPACKET)
    with folders() as (here, there), ours, its:
        paths, port = write_files(here, [("a", b"a")]), free_port()
        with running("receive", "-p", port, there, out=its) as receive:
            run("send", "-p", port, *paths)
            receive.ended()
        its.close()
        written = list(iter(lambda: ours.recv(65536).decode(), ""))
    assert written == ["file a 1 - -\n", "receiver files 1 finished\n"], "it wrote %r" % written


@cases(
    case("a port that is taken, to loop", ("loop",), ()),
    case("a port that is taken, to receive", ("receive",), ("/nowhere",)),
)
def test_port_that_is_taken(words, rest):
    with socket.create_server(("127.0.0.1", 0)) as taken:
        port = taken.getsockname()[1]
        run(*words, "--port", port, *rest, given=b"ok 2\n").wants(3, "", DEVICE)


@contextlib.contextmanager
def one_file(name="a.txt"):
    """The path of a file with this name."""
    with folders() as (here, _):
        yield write_files(here, [(name, b"abc")])[0]


MISSING = "/nowhere/a.txt"
ODD = "a\u0001b"


@cases(
    case("a file that is missing is not sent", (MISSING,), 3, DEVICE),
    case("a folder is not sent", ("/",), 3, DEVICE),
    case("a file with a name that cannot be sent", (ODD,), 2, "fault: name\n"),
    case("of two faults of files the first is told", (ODD, MISSING), 2, "fault: name\n"),
)
def test_files_that_cannot_be_sent(names, status, err):
    with one_file(ODD) as path:
        paths = [path if name == ODD else name for name in names]
        run("send", "--port", free_port(), *paths).wants(status, "", err)


CANNOT_OPEN = "cannot open '%s': no such file or directory\n" % MISSING


@cases(
    case("what cannot be opened is told to who asks for it", ("--verbose",), CANNOT_OPEN),
    case("what cannot be opened is not told unasked", (), ""),
    case("--quiet is stronger than --verbose", ("--verbose", "--quiet"), ""),
)
def test_told_besides(words, told):
    run("send", "--port", free_port(), *words, MISSING).wants(3, "", told + DEVICE)


@sentence("one file more than a batch may have")
def test_too_many_files():
    """They are given by one short word: the system has a limit for all of them."""
    with one_file("a") as path:
        there = ("env", "-C", os.path.dirname(path))
        ran = run("send", "--port", "1", *["a"] * 65_536, before=there)
        ran.wants(2, "", "fault: too many files\n")


@sentence("nobody listens")
def test_nobody_listens():
    with one_file() as path:
        run("send", "--port", free_port(), path).wants(3, "", DEVICE)


@cases(
    case("a line that is missing", "/nowhere/tty", "no such device"),
    case("a line that is a file, with words", None, "it is no terminal"),
)
def test_lines_that_cannot_be_opened(device, why):
    with one_file() as path:
        line = device or path
        for words in (("sb", path), ("rb", os.path.dirname(path))):
            ran = run(words[0], "--verbose", "--line", line, words[1])
            ran.wants(3, "", "cannot open '%s': %s\n%s" % (line, why, DEVICE))


def wants_refused(words, front):
    """Standard error alone has a text, which begins so, and the status is 2."""
    ran = run(*words)
    assert (ran.status, ran.out) == (2, ""), (ran.status, ran.out)
    assert ran.err.startswith(front) and ran.err.endswith("\n"), ran.err


@cases(
    *(
        case("refused: ymodem %s" % words, words)
        for words in (
            "nosuch",
            "play more",
            "--port 1",
            "loop",
            "loop --port",
            "send a.txt",
            "send --port 1",
            "send --port 1 --single a.txt",
            "receive --port 1",
            "receive --port 1 d e",
            "receive --port 1 --short d",
        )
    )
)
def test_words_that_are_refused(words):
    """They are refused in the words of clap."""
    wants_refused(words.split(), "error: ")


@cases(
    *(
        case("no port: ymodem %s" % words, words)
        for words in (
            "send --port 0 a.txt",
            "send --port 65536 a.txt",
            "send --port +1 a.txt",
            "receive --port x d",
            "loop --port 1.5",
        )
    )
)
def test_port_that_is_no_number(words):
    run(*words.split()).wants(2, "", "fault: port\n")


@cases(
    *(
        case("help: ymodem %s" % words, words, front)
        for words, front in (
            ("--help", "Sends and receives files by YMODEM"),
            ("help", "Sends and receives files by YMODEM"),
            ("play --help", "Plays the session of a script"),
            ("loop -h", "Plays the session of a script"),
            ("help send", "Connects to 127.0.0.1 and sends files"),
            ("receive --help", "Waits for one connection"),
        )
    )
)
def test_help(words, front):
    """It begins with what its command is for."""
    wants_refused(words.split(), front)


@cases(case("the version by --version", "--version"), case("the version by -V", "-V"))
def test_version(word):
    """It goes to standard output, and the status is 0."""
    ran = run(word)
    assert (ran.status, ran.err) == (0, "") and ran.out.startswith("ymodem "), (ran.out, ran.err)
