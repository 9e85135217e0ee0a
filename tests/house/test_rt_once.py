"""The sums of crates' texts, each made once for a question, libraries that hold their statements
alone, and checks without warnings (tools/rt_once.py)."""

import os
import subprocess
import sys
import tempfile

from support.cases import case, cases, sentence
from support.program import ROOT, write_files, write_program

ONCE = os.path.join(ROOT, "tools", "rt_once.py")
# A module like that of `rt`, and a script over it: each crate of a row stands on all below it.
MODULE = """
made = []


class Crate:
    def __init__(self, name, deps):
        self.name, self.deps, self.text = name, deps, ""

    def stamp(self):
        made.append(self.name)
        return self.name + self.text + repr([dep.stamp() for dep in self.deps])
"""
SCRIPT = """#!/usr/bin/env python3
import sys

%s


class Crate(rtlib.Crate):
    pass


row = []
for name in "abcdefgh":
    row.append(Crate(name, list(row)))
first = row[-1].stamp()
count = len(rtlib.made)
row[0].text = "changed"
second = row[-1].stamp()
print(sys.argv[1:], count, len(rtlib.made) - count)
print(first)
print(second)
"""


# How such a script comes by the module: as any does, or by itself.
IMPORTS = "import rtlib"
LOADS = """
import importlib.machinery
import importlib.util
import os

file = os.path.join(os.path.dirname(os.path.realpath(__file__)), "rtlib.py")
loader = importlib.machinery.SourceFileLoader("rtlib", file)
rtlib = importlib.util.module_from_spec(importlib.util.spec_from_loader("rtlib", loader))
sys.modules["rtlib"] = rtlib
loader.exec_module(rtlib)
"""


def said(words, path):
    environment = {**os.environ, "PATH": path + ":" + os.environ["PATH"]}
    ran = subprocess.run(words, env=environment, capture_output=True, text=True, check=True)
    return ran.stdout.splitlines()


@cases(
    case("the sum of each crate is made once for a question", IMPORTS),
    case("the sum of each crate is made once, where the script loads its module", LOADS),
)
def test_sums(module):
    """And it is the same."""
    with tempfile.TemporaryDirectory(prefix="ymodem-") as top:
        write_files(top, [("rtlib.py", MODULE.encode())])
        tool = write_program(os.path.join(top, "rt"), SCRIPT.replace("%s", module, 1))
        plain = said([tool, "run", "it"], top)
        once = said([sys.executable, ONCE, "run", "it"], top)
        # as many sums as there are ways from the highest crate
        assert plain[0] == "['run', 'it'] %d %d" % (2**7, 2**7), "by the script alone"
        assert once[0] == "['run', 'it'] 8 8", "with each made once"
        assert once[1:] == plain[1:], "the sums"
        assert once[1] != once[2], "a change is seen by the next question"


# A module that builds a library, and says by which words. Its `rattle` knows the flag, or not.
BUILDS = """
def help_of(command):
    return "%s"


def libraries_keep():
    return True


class Crate:
    def stamp(self):
        return ""

    def words(self, flags, keeps=True):
        return [*flags, "keeps"] if keeps else flags

    def build_rlib(self, flags, anew):
        kept = ["--incremental"] if libraries_keep() else []
        print(self.words(flags, keeps=not anew) + kept)
"""
BUILT = """#!/usr/bin/env python3
import sys

import rtlib

crate = rtlib.Crate()
crate.build_rlib(sys.argv[1:], False)
print(crate.words(sys.argv[1:]))
"""


@cases(
    case("a library holds its statements alone", "--statements", ["--statements"]),
    case("a library, where rattle knows no statements", "", ["--incremental"]),
)
def test_statements(known, built):
    """Then nothing is kept of it. No other command has the flag."""
    with tempfile.TemporaryDirectory(prefix="ymodem-") as top:
        write_files(top, [("rtlib.py", (BUILDS % known).encode())])
        write_program(os.path.join(top, "rt"), BUILT)
        told = said([sys.executable, ONCE, "--statements", "lib"], top)
        assert told == [str(["lib", "keeps", *built]), "['lib', 'keeps']"], "its words"
        told = said([sys.executable, ONCE, "lib"], top)
        assert told == ["['lib', 'keeps', '--incremental']", "['lib', 'keeps']"], "as it is"


# A module that warns of texts, as `rt` does ahead of a check.
WARNS = """
class Crate:
    def stamp(self):
        return ""


def stop_on_text(crate, verb):
    print("warned of", crate, verb)
"""
WARNED = """#!/usr/bin/env python3
import rtlib

rtlib.stop_on_text("low", "check")
print("checked")
"""


@sentence("a check of an edit leaves out the warnings of texts")
def test_unwarned():
    with tempfile.TemporaryDirectory(prefix="ymodem-") as top:
        write_files(top, [("rtlib.py", WARNS.encode())])
        write_program(os.path.join(top, "rt"), WARNED)
        told = said([sys.executable, ONCE, "--unwarned", "check"], top)
        assert told == ["checked"], "without them"
        told = said([sys.executable, ONCE, "check"], top)
        assert told == ["warned of low check", "checked"], "as it is"


@sentence("an rt that is no such script is run as it is")
def test_another_rt():
    with tempfile.TemporaryDirectory(prefix="ymodem-") as top:
        write_program(os.path.join(top, "rt"), '#!/bin/sh\necho "another one: $*"\n')
        told = said([sys.executable, ONCE, "check", "--jobs", "1"], top)
        assert told == ["another one: check --jobs 1"], "what it said"
