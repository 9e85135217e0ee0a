"""What `ymodem judge` tells of what a receiver has stored. Where it cannot look at that, nobody knows
whether data is lost."""

import os
import re
import subprocess

from support.cases import case, cases, sentence
from support.judged import PEER, SCRIPT
from support.program import LIMIT, PROGRAM, folders, free_port, wants_same, write_files

NOBODY = 65534
NO_FOLDER = "no such file or directory"


def ended(words, **how):
    """The status of a program with these words, and what it wrote."""
    done = subprocess.run(
        words, stdin=subprocess.DEVNULL, capture_output=True, text=True, timeout=LIMIT, **how
    )
    return done.returncode, done.stdout, done.stderr


def refuses(folder, why, **how):
    """Nothing is tried of who stores in this folder."""
    port = str(free_port())
    got = ended([PROGRAM, "judge", "receiver", "--port", port, "--stored", folder], **how)
    told = "cannot look at '%s': %s\nfault: device\n" % (folder, why)
    wants_same({"ended": got}, {"ended": (3, "", told)})


@cases(
    case("judge: no folder is there", lambda top: os.path.join(top, "none"), NO_FOLDER),
    case(
        "judge: a file is no folder",
        lambda top: write_files(top, [("file", b"")])[0],
        "not a directory",
    ),
    case("judge: an empty word is no folder", lambda top: "", NO_FOLDER),
)
def test_is_refused(named, why):
    """A folder that is not there is told before a peer is to be started."""
    with folders() as (top, _):
        refuses(named(top), why)


@sentence("judge: a folder that one may not enter")
def test_may_not_enter():
    """So is one whose files nobody may look at who tries the peer."""
    is_root = os.geteuid() == 0
    how = {"user": NOBODY, "group": NOBODY, "extra_groups": []} if is_root else {}
    with folders() as (top, _):
        os.chmod(os.path.dirname(top), 0o755)
        os.chmod(top, 0)
        refuses(top, "permission denied", **how)


def in_its_folder(before):
    """What comes of a receiver that does this in its folder, and stores in another one."""
    with folders() as (_, elsewhere):
        command = "%s; cd '%s'; exec %s receiver" % (before, elsewhere, PEER)
        env = {**os.environ, "YMODEM": PROGRAM}
        return ended([SCRIPT, "receiver", "--only", "plain", command], env=env)


@cases(
    case("judge: a pipe under the name of a file", "mkfifo judge.bin", "not a regular file"),
    case("judge: a folder under the name of a file", "mkdir judge.bin", "not a regular file"),
    case("judge: a file that cannot be opened", "ln -s judge.bin judge.bin", "too many levels of symbolic links"),
    case("judge: a folder that is gone", 'rmdir "$PWD"', NO_FOLDER, name=""),
)
def test_is_not_lost(before, why, name="/judge.bin"):
    """Nothing is found of who cannot be looked at, and it is told why."""
    status, out, err = in_its_folder(before)
    sums = "0 conform, 0 differ (harmless), 0 lose data, 0 left open\n"
    told = "ymodem-judge: plain: cannot look at '%s': %s\nfault: device\n" % (name, why)
    got = status, out, re.sub("'.*/judge-[^/']*", "'", err)
    wants_same({"ended": got}, {"ended": (3, sums, told)})


@cases(
    case("judge: a file that is not there is lost", "true"),
    case("judge: a file of other bytes is lost", "head -c 1100 /dev/zero >judge.bin"),
    case("judge: a file that is cut is lost", "head -c 1099 /dev/zero >judge.bin"),
)
def test_is_lost(before):
    """Who says that a file is stored, and has stored another one or none, loses it."""
    status, out, err = in_its_folder(before)
    last = out.splitlines()[1:]
    sums = ["avoid plain: it loses data", "0 conform, 0 differ (harmless), 1 lose data, 0 left open"]
    wants_same({"ended": (status, last, err)}, {"ended": (1, sums, "")})
