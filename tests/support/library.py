"""The library for C, and the programs that are built of it for the checks."""

import os
import tempfile
import threading

from support.commands import command
from support.program import ROOT


INCLUDE = os.path.join(ROOT, "include")
LIBRARY = os.path.abspath(
    os.environ.get(
        "YM_LIBRARY", os.path.join(ROOT, "out", "lib", "x86_64-unknown-linux-gnu", "libymodem.a")
    )
)
# What the programs of the checks are compiled with besides: for another processor, say, as the
# library that is named.
FLAGS = os.environ.get("YM_CFLAGS", "").split()
STRICT = ["-Wall", "-Wextra", "-Wpedantic", "-Werror"]
BUILT = tempfile.TemporaryDirectory(prefix="ymodem-c-")

ONE_BY_ONE = threading.Lock()


def built(source, name, *flags, compiler="cc"):
    """A program, made of a source of the repository and the library."""
    path = os.path.join(BUILT.name, name)
    command(
        compiler,
        "-std=gnu11",
        "-O2",
        *STRICT,
        *FLAGS,
        *flags,
        "-I",
        INCLUDE,
        *(os.path.join(ROOT, it) for it in source.split()),
        LIBRARY,
        "-o",
        path
    )
    return path


def example(name):
    """One of examples/c, made once."""
    path = os.path.join(BUILT.name, name)
    with ONE_BY_ONE:
        return path if os.path.exists(path) else built("examples/c/%s.c" % name, name)
