"""The example programs of the library for C alone: what they compile as, what they are called with,
and files that they cannot store."""

import os
import re
import socket
import subprocess
import tempfile

from support.cases import case, cases, sentence
from support.commands import command
from support.example_ends import c_send, on_line, pair
from support.frames import header
from support.library import FLAGS, INCLUDE, STRICT, built, example
from support.program import LIMIT, ROOT, folders, write_files
from support.skipping import needs
from support.tracing import strace
from support.waits import wait_for


@cases(
    *(
        case("examples/c/%s.c by -std=%s" % (name, standard), name, standard)
        for name in ("send", "receive")
        for standard in ("c99", "c11", "gnu99")
    )
)
def test_standard(name, standard):
    path = os.path.join(ROOT, "examples", "c", name + ".c")
    how = ["-std=" + standard, *STRICT, *FLAGS, "-I", INCLUDE]
    command("cc", *how, "-c", path, "-o", os.devnull)


@cases(
    case("send is called without files", "send"),
    case("receive is called without a folder", "receive"),
    case("receive is called with a folder that is not there", "receive", ("none",)),
)
def test_called_wrong(name, words=()):
    """It says how it is called, and writes nothing to the line."""
    with tempfile.TemporaryDirectory(prefix="ymodem-") as here:
        how = {"stdin": subprocess.DEVNULL, "capture_output": True, "text": True, "check": False}
        ran = subprocess.run([example(name), *words], cwd=here, timeout=LIMIT, **how)
    assert ran.returncode == 2 and not ran.stdout, "status %d: %r" % (ran.returncode, ran.stdout)
    assert re.fullmatch("usage: %s [A-Z.]+\n" % name, ran.stderr), "it says %r" % ran.stderr


@cases(
    case("send is given a folder", os.mkdir, "Is a directory"),
    case("send is given a pipe", os.mkfifo, "Invalid argument"),
    case("send is given what is not there", lambda path: None, "No such file or directory"),
)
def test_no_file(make, told):
    """It says so, and writes nothing to the line."""
    with tempfile.TemporaryDirectory(prefix="ymodem-") as here:
        make(os.path.join(here, "it"))
        how = {"stdin": subprocess.DEVNULL, "capture_output": True, "text": True, "check": False}
        ran = subprocess.run([example("send"), "it"], cwd=here, timeout=LIMIT, **how)
    assert (ran.returncode, ran.stdout, ran.stderr) == (2, "", "it: %s\n" % told), ran.stderr


@sentence("the examples take files of more than 2 GiB, and of behind 2038, on 32 bits")
def test_large_files():
    compiler = "arm-linux-gnueabihf-gcc"
    needs(compiler)
    with tempfile.TemporaryDirectory(prefix="ymodem-") as here:
        path = os.path.join(here, "large.c")
        with open(path, "w", encoding="utf-8") as it:
            it.write('#include "line.h"\nextern char large[sizeof(off_t) == 8 ? 1 : -1];\n')
            it.write("extern char late[sizeof(time_t) == 8 ? 1 : -1];\n")
        how = ["-std=c99", "-fsyntax-only", "-I", os.path.join(ROOT, "examples", "c")]
        command(compiler, *how, "-I", INCLUDE, path)


@sentence("a read of the examples' line beside signals")
def test_interrupted():
    command(built("tests/library/interrupted.c", "interrupted"))


@cases(
    case("send tells the time of a file", 0o12345, b"3 12345 100644"),
    case("send tells no time before 1970", -5, b"3 0 100644"),
)
def test_time(when, told):
    with folders() as (here, _):
        [path] = write_files(here, [("a", b"new")])
        os.chmod(path, 0o644)
        os.utime(path, (when, when))
        one, other = socket.socketpair()
        other.settimeout(LIMIT)
        with on_line(c_send(["a"]), one, cwd=here), other:
            other.sendall(b"C")
            wait_for(other, 133)
            assert other.recv(133) == header(b"a", told)


def refused(names, there, before=()):
    """What receive says of files that send has, of which it cannot store one."""
    with tempfile.TemporaryDirectory(prefix="ymodem-") as here:
        write_files(here, [(name, b"new") for name in names])
        one, other = socket.socketpair()
        with on_line([*before, example("receive"), there], one) as receiver:
            with on_line(c_send(names), other, cwd=here) as sender:
                _, said = receiver.communicate(timeout=LIMIT)
                _, also = sender.communicate(timeout=LIMIT)
    assert (receiver.returncode, sender.returncode) == (1, 1), "it says %r, and %r" % (said, also)
    assert also == b"send: cancelled by the peer\n", "send says %r" % also
    return said.decode()


NO_LINKS = ("-e", "inject=link,linkat:error=EPERM")


@sentence("receive stores where the file system has no hard links, as FAT")
def test_no_links():
    with folders() as (log, _):
        before = strace(os.path.join(log, "log"), *NO_LINKS)
        pair(lambda there: [*before, example("receive"), there], c_send)


@cases(
    case("receive leaves a file that is there, and no part of another one"),
    case("receive leaves a file that is there, without hard links", NO_LINKS),
)
def test_is_there_already(calls=()):
    """It is so each time: a part that was left would be refused the next time."""
    with folders() as (there, log):
        before = strace(os.path.join(log, "log"), *calls) if calls else ()
        write_files(there, [("b", b"old")])
        for names, stored in ((["a", "b"], 1), (["b"], 0), (["b"], 0)):
            said = refused(names, there, before)
            wanted = "receive: b: File exists\nreceive: a file failed, files %d\n" % stored
            assert said == wanted, "it says %r" % said
            assert sorted(os.listdir(there)) == ["a", "b"], os.listdir(there)
        with open(os.path.join(there, "b"), "rb") as it:
            assert it.read() == b"old"


@sentence("receive says why a name of 251 bytes is not stored")
def test_long_name():
    """It has no room for the ending of a part."""
    with folders() as (there, _):
        name = "n" * 251
        said = refused([name], there)
        assert said.startswith("receive: %s.part: File name too long\n" % name), said
        assert not os.listdir(there), os.listdir(there)


def unheard(words, there, line):
    """How a program ends, and what it says, whose replies nobody reads any more."""
    reads, writes = os.pipe()
    os.close(reads)
    how = {"input": line, "stdout": writes, "stderr": subprocess.PIPE, "check": False}
    ran = subprocess.run(words, cwd=there, timeout=LIMIT, **how)
    os.close(writes)
    return ran.returncode, ran.stderr.decode()


@sentence("the line is gone where an example writes: it says so, and no part is left")
def test_unheard():
    """A program that a signal ends there would leave the part, and refuse the file from then on."""
    with folders() as (here, there):
        write_files(here, [("a", b"new")])
        block0 = header(b"a", b"3")
        for _ in range(2):
            assert unheard([example("receive"), there], there, block0) == (
                1,
                "receive: the line failed, files 0\n",
            )
            assert not os.listdir(there), os.listdir(there)
        assert unheard(c_send(["a"]), here, b"C") == (1, "send: the line failed\n")


@cases(
    case("YM_DELIVERY is 1", "-DYM_DELIVERY=1", "YM_DELIVERY is at least 2"),
    case("YM_PIECE is 0", "-DYM_PIECE=0", "YM_PIECE is at least 1"),
    case("YM_MOST_READS is 23", "-DYM_MOST_READS=23", "YM_MOST_READS is at least 24"),
)
def test_room(given, told):
    """ymodem_io.h says that it wants more room."""
    how = ["-x", "c", "-std=c99", given, "-I", INCLUDE, "-fsyntax-only", "-include"]
    words = ["cc", *how, "ymodem_io.h", os.devnull]
    ran = subprocess.run(words, capture_output=True, text=True, check=False)
    assert ran.returncode and told in ran.stderr, ran.stderr
