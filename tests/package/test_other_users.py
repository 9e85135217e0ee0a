"""Users and places of another shape: a user who is not root, with umask 077 and in another locale,
a tree that can only be read, and folders with spaces in their names."""

import contextlib
import os
import shlex
import shutil
import subprocess

from support.cases import case, cases
from support.locales import turkish
from support.program import LIMIT, PROGRAM, wants_same, wants_stored, write_files
from support.skipping import Skipped
from support.tree import session, tree


# A user who owns nothing.
NOBODY = 65534
FILES = [
    ("two words.bin", bytes(range(256)) * 20),
    ("I\u0131\u0130i Gr\u00f6\u00dfe.txt", b"hello\n" * 90),
]


def becomes_another(it):
    """From now on this tree is used by somebody who is not root, with a umask by which nobody else
    may read what he writes. His tools and the program are where he can reach them."""
    python = shutil.which("python3", path="/usr/local/bin:/usr/bin:/bin")
    if not python:
        raise Skipped("no python3 that each user may run")
    os.chmod(os.path.dirname(it.calls), 0o755)
    os.chmod(it.calls, 0o777)
    with contextlib.suppress(FileNotFoundError):
        os.remove(os.path.join(it.calls, "called"))
    os.symlink(python, os.path.join(it.calls, "python3"))
    it.environment["YMODEM"] = shutil.copy(PROGRAM, os.path.join(it.calls, "ymodem"))
    it.environment["HOME"] = it.calls
    it.how["umask"] = 0o077
    if os.geteuid() == 0:
        it.how |= {"user": NOBODY, "group": NOBODY, "extra_groups": []}


@contextlib.contextmanager
def only_read(top):
    """Nothing below this folder may be written, for as long as this lasts."""
    for folder, _, files in os.walk(top):
        for name in files:
            os.chmod(os.path.join(folder, name), 0o555)
        os.chmod(folder, 0o555)
    try:
        yield
    finally:
        for folder, _, _ in os.walk(top):
            os.chmod(folder, 0o755)


def transfers(it, ymodem, here, there):
    """This user sends files to himself, by `ymodem-tty` at both ends of a line of two named pipes.
    Both ends open the same pipe first, since neither is open before it has a reader and a
    writer."""
    line = [os.path.join(it.calls, name) for name in ("line", "back")]
    script = """
mkfifo "$3" "$4" && mkdir "$2" || exit
cd "$1" || exit
"$5/bin/ymodem-tty" receive "$2" < "$3" > "$4" & receiver=$!
"$5/bin/ymodem-tty" send * > "$3" < "$4" || exit
wait $receiver
"""
    status, _, err = it.run(
        "timeout", str(LIMIT), "sh", "-c", script, "", here, there, *line, ymodem
    )
    assert status == 0, "the transfer ended with status %d: %s" % (status, err)


@cases(
    case("another user, with umask 077, in a tree that is only read", dict),
    case("another user, in a Turkish locale, in a tree that is only read", turkish),
    case("another user, in the locale C, in a tree that is only read", lambda: {"LC_ALL": "C"}),
)
def test_another_user(variables):
    """Once it is built, nothing has to be written to play and to install; and what was installed is
    used."""
    with tree() as it:
        assert it.make("build")[0] == 0, "it is not built"
        becomes_another(it)
        it.environment |= variables()
        here, there, to = (
            os.path.join(it.calls, name) for name in ("to send", "taken", "an installed one")
        )
        os.mkdir(here)
        os.chmod(here, 0o755)
        write_files(here, FILES)
        with only_read(it.top):
            wants_same({"play": it.make("play")[:2]}, {"play": (0, session())})
            status, _, err = it.make("install", "PREFIX=" + to)
            assert status == 0, "make install: %s" % err
            if shutil.which("socat"):
                transfers(it, to, here, there)
                wants_stored(there, FILES)
        wants_same(
            {"who": os.stat(to + "/bin/ymodem").st_uid}, {"who": it.how.get("user", os.geteuid())}
        )


@cases(
    case("the library is made and installed in folders with spaces in their names", "an installed"),
    case("the library is installed in a folder of signs", "R&D |#1 \\ \"`it's`\" ~%"),
    case("the library is installed below a DESTDIR that begins here", "an installed", "staged & so"),
)
def test_library_is_installed(folder, staged=None):
    """`make lib` and `make install-lib`, in a folder with a space in its name and into such a
    one."""
    with tree() as it:
        target, prefix = "x86_64-unknown-linux-gnu", os.path.join(it.calls, folder)
        status, _, err = it.make("lib", "TARGETS=" + target)
        assert status == 0, "make lib: %s" % err
        assert it.called() == ["lib --target " + target], "it called another rt"
        words = ["PREFIX=" + prefix, *(["DESTDIR=" + staged] if staged else [])]
        status, _, err = it.make("install-lib", *words)
        assert status == 0, "make install-lib: %s" % err
        assert it.called() == ["lib --target " + target], "it made more than it installs"
        to = os.path.join(it.top, staged) + prefix if staged else prefix
        found = sorted(
            os.path.join(folder, name)[len(to) + 1 :]
            for folder, _, files in os.walk(to)
            for name in files
        )
        wanted = ["include/ymodem.h", "include/ymodem_io.h", "lib/libymodem.a"]
        wants_same(dict.fromkeys(found), dict.fromkeys([*wanted, "lib/pkgconfig/ymodem.pc"]))
        if shutil.which("pkg-config"):
            where = {**os.environ, "PKG_CONFIG_PATH": to + "/lib/pkgconfig"}
            asks = ["pkg-config", "--cflags", "--libs", "ymodem"]
            how = {"env": where, "capture_output": True, "text": True, "check": True}
            told = subprocess.run(asks, **how).stdout
            words = ["-I%s/include" % prefix, "-L%s/lib" % prefix, "-lymodem"]
            assert shlex.split(told) == words, "pkg-config tells %s" % told
