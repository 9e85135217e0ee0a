#!/usr/bin/env python3
"""Runs `rt` with these words, and has it make the sum of each crate's text once for a question.

`rt` asks whether the text of a library changed, by a sum of it and of those of the crates below.
It makes that anew for each way that leads from a crate to one below. Of these crates there are
thousands of ways, and one call of `rt` takes minutes for them. Here a sum is made once for each
crate and each question, so the answers are the same. An `rt` that is no such script is run as it is.

usage: rt_once.py [--statements|--unwarned] WORD..
  --statements   a library that is built holds what other crates can cite, as those of `rt ci` do, and
                 not its checked proofs, and nothing is kept for its next check
  --unwarned     a check leaves out the warnings of texts that a verdict of `rt` would refuse. They
                 change no check, and to read all texts for them takes seconds
"""

import importlib
import importlib.machinery
import os
import runpy
import shutil
import sys
import threading

sys.dont_write_bytecode = True

# What the script has its crates from.
MODULE = "rtlib"
STATEMENTS, UNWARNED = "--statements", "--unwarned"
# Which of these words is given, if one is.
HOW = None


def summed_once(stamp):
    """The sum of a crate, which asks for those of the crates below, with each of these made once."""
    found = threading.local()

    def sum_of(crate):
        known = getattr(found, "known", None)
        if known is not None and id(crate) in known:
            return known[id(crate)]
        is_asked = known is None
        if is_asked:
            known = found.known = {}
        try:
            known[id(crate)] = stamp(crate)
            return known[id(crate)]
        finally:
            if is_asked:
                found.known = None

    return sum_of


def cut(module):
    """Has the libraries that are built hold their statements alone, where `rt` can do that."""
    if STATEMENTS not in module.help_of("build"):
        return
    build, words_of = module.Crate.build_rlib, module.Crate.words
    # what is kept for the next check cannot be made by the same run
    module.libraries_keep = lambda: False

    def build_cut(crate, *given, **named):
        crate.words = lambda *words, **more: [*words_of(crate, *words, **more), STATEMENTS]
        try:
            return build(crate, *given, **named)
        finally:
            del crate.words

    module.Crate.build_rlib = build_cut


class Loader(importlib.machinery.SourceFileLoader):
    """Loads the module of `rt` for a script that loads it by itself."""

    def exec_module(self, module):
        super().exec_module(module)
        if module.__name__ == MODULE:
            change(module)


def change(module):
    module.Crate.stamp = summed_once(module.Crate.stamp)
    if HOW == STATEMENTS:
        cut(module)
    if HOW == UNWARNED:
        module.stop_on_text = lambda crate, verb: None


def main(words):
    rt = os.path.realpath(shutil.which("rt") or "rt")
    sys.path.insert(0, os.path.dirname(rt))
    try:
        change(importlib.import_module(MODULE))
    except (ImportError, AttributeError):
        os.execv(rt, [rt, *words])
    importlib.machinery.SourceFileLoader = Loader
    sys.argv = [rt, *words]
    runpy.run_path(rt, run_name="__main__")


if __name__ == "__main__":
    HOW = sys.argv[1] if sys.argv[1:2] in ([STATEMENTS], [UNWARNED]) else None
    main(sys.argv[1 + bool(HOW) :])
