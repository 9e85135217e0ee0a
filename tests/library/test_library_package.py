"""The Debian package of the library for C."""

import os
import subprocess
import tempfile

from support.cases import case, cases, sentence
from support.commands import command
from support.example_ends import pair
from support.library import LIBRARY, STRICT
from support.packages import FIXED, lacking, sum_of
from support.program import ROOT, wants_same
from support.skipping import needs


FILES = (
    "include/ymodem.h",
    "include/ymodem_io.h",
    "lib/x86_64-linux-gnu/libymodem.a",
    "lib/x86_64-linux-gnu/pkgconfig/ymodem.pc",
    "share/doc/libymodem-dev/docs/library.md",
    "share/doc/libymodem-dev/docs/portable.md",
    "share/doc/libymodem-dev/examples/c/line.h",
    "share/doc/libymodem-dev/examples/c/receive.c",
    "share/doc/libymodem-dev/examples/c/send.c",
    "share/doc/libymodem-dev/examples/bare/load.c",
    "share/doc/libymodem-dev/copyright",
    "share/doc/libymodem-dev/changelog.gz",
)
# The library as files in C, where they have been made, and what the package has then.
PORTABLE = os.path.join(ROOT, "out", "portable")
PORTABLE_FILES = tuple(
    "share/ymodem/portable/" + it for it in ("ymodem.c", "ymodem.h", "ymodem_io.h")
)
# What a package is made of. The version stands in a source of the program.
PARTS = (
    *("packaging", "include", "examples", "docs", "README.md", "CONTRIBUTING.md", "tools"),
    "crates/ym_words/src/command.rt",
)


def copied(to, umask):
    """A copy of what the package is made of, as a user with this umask has it."""
    os.mkdir(to)
    for name in PARTS:
        copy = 'umask "$1"; cd "$2"; exec cp -R --parents "$3" "$4"'
        subprocess.run(["sh", "-c", copy, "", umask, ROOT, name, to], check=True)
    return to


def portable():
    return [PORTABLE] if os.path.isdir(PORTABLE) else []


def packed(tree, library, umask="022", **environment):
    needs("strip", "readelf", "dpkg-deb")
    package = [tree + "/packaging/package.py", "dev", library, tree + "/out", *portable()]
    words = ["sh", "-c", 'umask "$1"; shift; exec "$@"', "", umask, *package]
    return subprocess.run(
        words, env={**FIXED, **environment}, capture_output=True, text=True, check=True
    ).stdout.strip()


@cases(case("two Debian packages of the library are the same"))
def test_is_same_twice():
    """Two packages of one tree, made in different folders and by users with different umasks, are
    the same byte for byte."""
    with tempfile.TemporaryDirectory(prefix="ymodem-") as top:
        trees = [(copied(top + "/one", "022"), "022"), (copied(top + "/two of them", "077"), "077")]
        for epoch in ("1700000000", "4000000000"):
            assert (
                len(
                    {
                        sum_of(packed(tree, LIBRARY, umask, SOURCE_DATE_EPOCH=epoch))
                        for tree, umask in trees
                    }
                )
                == 1
            ), "they differ, for a commit at %s" % epoch


@cases(case("lintian finds no error and no warning in the library's package"))
def test_lintian_is_silent():
    needs("lintian")
    with tempfile.TemporaryDirectory(prefix="ymodem-") as top:
        file = packed(copied(top + "/one", "022"), LIBRARY)
        ran = subprocess.run(
            ["lintian", "--fail-on", "error,warning", file],
            capture_output=True,
            text=True,
            check=False,
        )
        found = [it for it in ran.stdout.splitlines() if it[:2] in ("E:", "W:")]
        assert not found and not ran.returncode, "\n".join(found) or ran.stderr


def unpacked(top, library):
    """The folder `usr` of a package that was taken apart, with its files in it."""
    file = packed(copied(top + "/one", "022"), library)
    subprocess.run(["dpkg-deb", "--extract", file, top + "/root"], check=True)
    wanted = FILES + PORTABLE_FILES * len(portable())
    missing = [it for it in wanted if not os.path.isfile(os.path.join(top, "root", "usr", it))]
    assert not missing, "it lacks %s" % missing
    with open(os.path.join(ROOT, "include", "ymodem.h"), encoding="utf-8") as one, open(
        top + "/root/usr/include/ymodem.h", encoding="utf-8"
    ) as other:
        wants_same({"ymodem.h": other.read()}, {"ymodem.h": one.read()})
    return top + "/root/usr"


@sentence("the pages of the library's package lead somewhere")
def test_pages_lead_somewhere():
    """What a page links to, and what it names of docs and examples, is in the package."""
    with tempfile.TemporaryDirectory(prefix="ymodem-") as top:
        documents = os.path.join(unpacked(top, LIBRARY), "share", "doc", "libymodem-dev")
        missing = lacking(documents)
        assert not missing, "it lacks %s" % missing


def flags(usr):
    """How a compiler is told of what a package below another root has."""
    needs("pkg-config")
    found = {
        **os.environ,
        "PKG_CONFIG_LIBDIR": usr + "/lib/x86_64-linux-gnu/pkgconfig",
        "PKG_CONFIG_SYSROOT_DIR": os.path.dirname(usr),
    }
    # The folders of the system are not left out.
    found |= {"PKG_CONFIG_ALLOW_SYSTEM_CFLAGS": "1", "PKG_CONFIG_ALLOW_SYSTEM_LIBS": "1"}
    return subprocess.run(
        ["pkg-config", "--cflags", "--libs", "ymodem"],
        env=found,
        capture_output=True,
        text=True,
        check=True,
    ).stdout.split()


@sentence("the examples, built by what the library's package has")
def test_from_package():
    """The examples, built by what the Debian package has alone, at the two ends of a line."""
    with tempfile.TemporaryDirectory(prefix="ymodem-") as top:
        usr = unpacked(top, LIBRARY)
        for name in ("receive", "send"):
            source = os.path.join(
                usr, "share", "doc", "libymodem-dev", "examples", "c", name + ".c"
            )
            command("cc", "-std=gnu11", *STRICT, source, *flags(usr), "-o", os.path.join(top, name))
        pair(lambda there: [top + "/receive", there], lambda names: [top + "/send", *names])
