"""What `ymodem-judge` says where its peer cannot be started, or what it finds cannot be written."""

import os
import re
import shlex
import shutil
import subprocess

from support.cases import case, cases, sentence
from support.judged import PEER, SCRIPT
from support.program import (
    LIMIT,
    PROGRAM,
    copy_program,
    folders,
    wants_same,
    write_program,
)
from support.skipping import Skipped

ONE_CASE = ["--only", "plain"]


def judge(*words, out=subprocess.PIPE, program=PROGRAM, before=(), of=SCRIPT, path=None, cwd=None):
    """How `ymodem-judge` ended with these words."""
    return subprocess.run(
        [*before, of, *words],
        cwd=cwd,
        stdin=subprocess.DEVNULL,
        stdout=out,
        stderr=subprocess.PIPE,
        env={**os.environ, "YMODEM": program, "PATH": path or os.environ["PATH"]},
        text=True,
        timeout=LIMIT,
        check=False,
    )


@cases(
    case("judge: a receiver that is not there", ["receiver", "no-such"], "no-such"),
    case("judge: a sender that is not there", ["sender", "no-such"], "no-such"),
    case("judge: a receiver at a port, not there", ["receiver", "no-such $PORT"], "no-such"),
    case("judge: a sender at a port, not there", ["sender", "no-such $PORT"], "no-such"),
    case("judge: a receiver that may not be run", ["receiver", "/dev/null"], "/dev/null"),
    case("judge: a receiver that is not there, by JSON", ["--json", "receiver", "no-such"], "such"),
    case("judge: a shell that says nothing", ["receiver", "exit 127"], "its status is 127"),
    case("judge: what a terminal heeds is not shown", ["receiver", "$(printf 'a\\033c')"], "a?c"),
)
def test_is_not_started(words, said):
    """It is told once, with what the shell says, and nothing is found of such a peer."""
    done = judge(*words)
    wants_same({"ended": (done.returncode, done.stdout)}, {"ended": (2, "")})
    begin = "ymodem-judge: the peer cannot be started: "
    assert done.stderr.startswith(begin) and said in done.stderr, repr(done.stderr)
    assert done.stderr.count("\n") == 1 and "\x1b" not in done.stderr, repr(done.stderr)


@cases(
    case("judge: a peer that answers ends as it likes", PEER + " receiver; exit 127", 0),
    case("judge: a peer that ends well and says nothing", "true", 1),
)
def test_was_started(command, status):
    """Who answers was started, and so was who ends otherwise."""
    done = judge(*ONE_CASE, "receiver", command)
    wants_same({"ended": (done.returncode, done.stderr)}, {"ended": (status, "")})


@cases(
    case("judge: a port in braces is the port", "%s receive --eager --port ${PORT} ." % PROGRAM),
    case("judge: another word of a shell is no port", ": $PORTS; %s receiver" % PEER),
)
def test_speaks_where_it_says(command):
    """It is tried by what it does there."""
    done = judge(*ONE_CASE, "receiver", command)
    wants_same({"ended": (done.returncode, done.stderr)}, {"ended": (0, "")})


@cases(
    case("judge: a shell that cannot read the command", "(", "yntax error"),
    case("judge: a sender that finds no file", "%s sb none" % PROGRAM, "fault: device"),
    case("judge: a peer that fails and says nothing", "exit 4", "its status is 4"),
    case("judge: a peer that a signal has ended", "kill -KILL $$", "SIGKILL has ended it"),
    case("judge: a peer that a signal of no name has ended", "kill -40 $$", "signal 40 has ended"),
)
def test_has_failed(command, said):
    """A peer that ends before it answers, and not well: what it said last is told."""
    done = judge(*ONE_CASE, "sender", command)
    wants_same({"status": done.returncode}, {"status": 1})
    begin = "ymodem-judge: plain: the peer has ended: "
    assert done.stderr.startswith(begin) and said in done.stderr, repr(done.stderr)
    assert done.stderr.count("\n") == 1, repr(done.stderr)


@cases(
    case("judge: a ymodem that is not there", "/none", 127, "is missing, which YMODEM names"),
    case("judge: a ymodem not on the path", "no-such", 127, "is missing, which YMODEM names"),
    case("judge: a ymodem that may not be run", "/dev/null", 126, "cannot be run"),
    case("judge: a ymodem that is a folder", "/", 126, "cannot be run"),
    case("judge: a ymodem that does not know it", shutil.which("false"), 126, "cannot be run"),
)
def test_without_ymodem(program, status, told):
    """It is named, with the status of a shell."""
    done = judge("receiver", "true", program=program)
    wanted = (status, "", "ymodem-judge: '%s' %s\n" % (program, told))
    wants_same({"ended": (done.returncode, done.stdout, done.stderr)}, {"ended": wanted})


@cases(
    case("judge: a ymodem that is named stands for the one beside it", "./ymodem"),
    case("judge: a ymodem that is named is looked for on the path", "ymodem"),
)
def test_named_ymodem(named):
    """The manual page has it so: what YMODEM names is run, and else what stands beside the
    script."""
    with folders() as (here, there):
        beside = copy_program(SCRIPT, here)
        write_program(os.path.join(here, "ymodem"), "#!/bin/sh\nexit 1\n")
        os.symlink(PROGRAM, os.path.join(there, "ymodem"))
        path = there + ":" + os.environ["PATH"]
        words = [*ONE_CASE, "receiver", PEER + " receiver"]
        done = judge(*words, program=named, of=beside, path=path, cwd=there)
    wants_same({"ended": (done.returncode, done.stderr)}, {"ended": (0, "")})


@cases(
    case("judge: a link to it finds the ymodem beside the script", False, 0),
    case("judge: a link to it takes the ymodem beside the link first", True, 126),
)
def test_by_a_link(has_own, status):
    """A link may lead to the script from a folder that has no ymodem, or another one."""
    with folders() as (here, there):
        os.symlink(copy_program(SCRIPT, here), os.path.join(there, "judge"))
        os.symlink(PROGRAM, os.path.join(here, "ymodem"))
        if has_own:
            os.symlink(shutil.which("false"), os.path.join(there, "ymodem"))
        words = [*ONE_CASE, "receiver", PEER + " receiver"]
        done = judge(*words, program="", of=os.path.join(there, "judge"))
    wants_same({"ended": done.returncode}, {"ended": status})


@cases(
    *(
        case("judge: no number of cases is %r" % word, word)
        for word in ("-3", "0", "x", "1.5", "", "10000")
    )
)
def test_refuses_a_number(word):
    """So many cases cannot be tried at once: nothing is tried."""
    done = judge("--jobs", word, *ONE_CASE, "receiver", "true")
    told = "'%s' is no number of cases from 1 to 9999\n" % word
    wants_same({"ended": (done.returncode, done.stdout)}, {"ended": (2, "")})
    assert done.stderr.endswith(": error: argument --jobs: " + told), repr(done.stderr)


# Names the cases, and has no memory to play one.
WITHOUT_MEMORY = """#!/bin/sh
case $* in *--list*) exec %s "$@" ;; esac
echo "fault: memory" >&2
exit 3
"""


@cases(case("judge: a ymodem that has no memory", ["receiver", "sender"]))
def test_has_no_memory(kinds):
    """It ends before it speaks to the peer. That is told, and is not waited for."""
    with folders() as (here, _):
        without = WITHOUT_MEMORY % shlex.quote(PROGRAM)
        program = write_program(os.path.join(here, "ymodem"), without)
        for kind in kinds:
            done = judge(*ONE_CASE, kind, "cat", program=program)
            ended = (done.returncode, done.stderr)
            wants_same({kind: ended}, {kind: (3, "ymodem-judge: plain: fault: memory\n")})


# Names the cases, and is killed when it plays one, as by a system that has no memory left.
KILLED = """#!/bin/sh
case $* in *--list*) exec %s "$@" ;; esac
echo "start the peer: plain" >&2
kill -KILL $$
"""


@sentence("judge: a ymodem that is killed")
def test_is_killed():
    """It is told by what, and the status is none of a peer."""
    with folders() as (here, _):
        killed = KILLED % shlex.quote(PROGRAM)
        program = write_program(os.path.join(here, "ymodem"), killed)
        done = judge(*ONE_CASE, "receiver", "true", program=program)
    wanted = (3, "ymodem-judge: plain: ymodem: SIGKILL has ended it\n")
    wants_same({"ended": (done.returncode, done.stderr)}, {"ended": wanted})


# Starts a command that may store no byte, as where the disk is full.
WITHOUT_ROOM = ["sh", "-c", 'ulimit -f 0; exec "$@"', "sh"]


@sentence("judge: a folder in which nothing can be stored")
def test_has_no_room():
    """The file that the peer is to send cannot be made: the case cannot be tried, and that is
    told."""
    done = judge(*ONE_CASE, "sender", "cat", before=WITHOUT_ROOM)
    one = re.fullmatch(r"ymodem-judge: plain: .+\n", done.stderr)
    assert (done.returncode, bool(one)) == (3, True), "it said %r" % done.stderr


# Starts a command that may store less than its peer says.
WITH_LITTLE_ROOM = ["sh", "-c", 'ulimit -f 2000; exec "$@"', "sh"]


@sentence("judge: a peer that says more than there is room for")
def test_says_much():
    """What it says is not stored, and the case is tried."""
    command = "head -c 3000000 /dev/zero >&2; %s receiver" % PEER
    done = judge(*ONE_CASE, "receiver", command, before=WITH_LITTLE_ROOM)
    wants_same({"ended": (done.returncode, done.stderr)}, {"ended": (0, "")})


def full():
    """A device that is full."""
    if not os.path.exists("/dev/full"):
        raise Skipped("/dev/full: not there")
    return os.open("/dev/full", os.O_WRONLY)


def nobody_reads():
    """A pipe that nobody reads any more."""
    read, write = os.pipe()
    os.close(read)
    return write


@cases(
    case("judge: a report to a full disk", full, ONE_CASE, "No space left on device"),
    case("judge: a report of JSON to a full disk", full, ["--json"], "No space left on device"),
    case("judge: a report that nobody reads", nobody_reads, ONE_CASE, "Broken pipe"),
    case("judge: a report of all cases that nobody reads", nobody_reads, [], "Broken pipe"),
)
def test_cannot_write(opened, words, why):
    """It is told in one line, and the status is none of a peer."""
    out = opened()
    try:
        done = judge(*words, "receiver", PEER + " receiver", out=out)
    finally:
        os.close(out)
    wanted = (3, "ymodem-judge: cannot write: %s\n" % why)
    wants_same({"ended": (done.returncode, done.stderr)}, {"ended": wanted})


@sentence("judge: a report to standard output that is closed")
def test_has_no_output():
    """So it is there: no report was written."""
    before = ["sh", "-c", 'exec "$@" >&-', "sh"]
    done = judge(*ONE_CASE, "receiver", PEER + " receiver", before=before)
    wanted = (3, "ymodem-judge: cannot write: Bad file descriptor\n")
    wants_same({"ended": (done.returncode, done.stderr)}, {"ended": wanted})
