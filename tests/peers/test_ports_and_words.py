"""Ports that cannot be had, and words that are refused."""

import socket

from support.cases import sentence
from support.program import folders, free_port, run, write_files
from support.talking import SCRIPT


# Ports and words


@sentence("nobody listens")
def test_nobody_listens():
    with folders() as (here, _):
        paths = write_files(here, [("a", b"abc")])
        run("send", "--port", free_port(), *paths).wants(3, "", "fault: device\n")


@sentence("the port is in use")
def test_port_in_use():
    with socket.create_server(("127.0.0.1", 0)) as taken, folders() as (_, there):
        port = taken.getsockname()[1]
        run("receive", "--port", port, there).wants(3, "", "fault: device\n")
        run("loop", "--port", port, given=b"ok 2\n").wants(3, "", "fault: device\n")


@sentence("P is no port")
def test_no_port():
    with folders() as (here, there):
        paths = write_files(here, [("a", b"abc")])
        for port in ("0", "65536", "x", "-1", "1 ", ""):
            for words in (
                ["send", "--port=" + port, *paths],
                ["receive", "--port=" + port, there],
                ["loop", "--port=" + port],
            ):
                run(*words, given=b"ok 2\n").wants(2, "", "fault: port\n")


@sentence("words that are refused")
def test_refused_words():
    for words in (
        ["send"],
        ["send", "--port", "9"],
        ["receive", "--port", "9"],
        ["receive", "--port", "9", "a", "b"],
        ["send", "a"],
        ["swim"],
        ["play", "more"],
        ["loop"],
        ["--help"],
        ["send", "--long", "--port", "9", "a"],
    ):
        ended = run(*words)
        ended.wants(2, "", ended.err)
        assert ended.err.strip(), "no text for the words " + " ".join(words)


@sentence("loop prints what play prints")
def test_loop_as_play():
    played = run("play", given=SCRIPT)
    played.wants(0, played.out)
    looped = run("loop", "--port", free_port(), given=SCRIPT)
    looped.wants(0, played.out)
    assert played.out.endswith("sender done 2 finished\nreceiver files 2 finished\n"), (
        "the script ended with " + played.out[-80:]
    )


@sentence("the output is full")
def test_output_is_full():
    with open("/dev/full", "wb") as full:
        run("play", given=b"ok 2\n", out=full).wants(3, "", "fault: device\n")
