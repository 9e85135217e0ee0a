"""The plants: wrong bodies beside the code, each with what has to catch it.

A plant is a file NAME.edit of a folder plants/: of a crate, of share/, of include/ or of web/. It
is an edit as those of must-fail/ are, with a line `by: CATCHER` more. A catcher is one of these:

  CRATE::MODULE::TEST      a test of a crate of tests, tried without proofs
  tests/FOLDER CHECK       tests of the program, or of what is shipped beside it, by the words that
                           their sentences begin with
  nothing: WHY             nobody catches it, for this reason
"""

import os
import re

from edit_crates import CRATES, ROOT, Listed
from edit_texts import Edit, Unfit, functions_of

PLANTS = "plants"
# Where what is shipped beside the program has plants.
BESIDE = ("include", "share", "web")
NOTHING = "nothing: "
# Where a test of a crate may stand.
TESTS = "fn %s("


class Plant(Edit):
    """A plant. Its crate, or one of BESIDE, is where it stands."""

    def __init__(self, top, file):
        super().__init__(os.path.join(top, PLANTS, file))
        self.top, self.home = top, os.path.basename(top)
        self.parts = self.parts if self.is_of_a_crate else ("",)
        found = re.findall(r"^by: (.+)$", self.text, re.M)
        self.by = found[0].strip() if len(found) == 1 else ""
        self.name = "%s/%s" % (self.home, self.name.removesuffix(".edit"))

    @property
    def is_of_a_crate(self):
        return os.path.dirname(self.top) == CRATES

    @property
    def catcher(self):
        """Who tries it: a crate of tests, or a folder of tests/; and what it tries there."""
        if self.by.startswith(NOTHING):
            return None, self.by.removeprefix(NOTHING)
        if self.by.startswith("tests/"):
            folder, _, check = self.by.partition(" ")
            return folder, check
        crate, _, test = self.by.partition("::")
        return crate, test

    def bodies(self):
        """The bodies that it turns: their file, where they begin and end there, and their new text.
        What is no body of a function cannot stand beside another one."""
        texts = {}
        for path, was, old, _ in self.steps(texts, self.top):
            at = was.index(old)
            inside = [it for it in functions_of(path, was) if it.body < at < it.end]
            if not inside or inside[-1].is_const:
                raise Unfit("'%s' is in no body of a function" % old.strip()[:60])
        for path, now in texts.items():
            was = text_of(os.path.join(self.top, path))
            for one, other in zip(functions_of(path, was), functions_of(path, now)):
                text = now[other.body : other.end]
                if was[one.body : one.end] != text:
                    yield path, one.body, one.end, text


def plants_of(top):
    """The plants of a folder."""
    there = os.path.join(top, PLANTS)
    names = sorted(os.listdir(there)) if os.path.isdir(there) else []
    return [Plant(top, it) for it in names if it.endswith(".edit")]


def homes():
    """The folders that may have plants, by their names: the crates, and what is shipped beside."""
    tops = [os.path.join(CRATES, it) for it in sorted(Listed().lines)]
    tops += [os.path.join(ROOT, it) for it in BESIDE]
    return {os.path.basename(it): it for it in tops}


def all_plants():
    return [it for top in homes().values() for it in plants_of(top)]


def text_of(path):
    with open(path, encoding="utf-8") as it:
        return it.read()


def test_is_there(crate, test):
    """Whether a crate of tests has this test."""
    *modules, name = test.split("::")
    file = os.path.join(CRATES, crate, "src", *modules) + ".rt"
    return bool(modules) and os.path.isfile(file) and TESTS % name in text_of(file)


def check_is_there(folder, check):
    """Whether a folder of tests/ has a test whose sentence begins so."""
    there = os.path.join(ROOT, folder)
    if not check or not os.path.isdir(there):
        return False
    names = [it for it in os.listdir(there) if it.startswith("test_") and it.endswith(".py")]
    return any('"%s' % check in text_of(os.path.join(there, it)) for it in names)


def wrong_with(plant):
    """What is wrong with a plant as a file, or no word."""
    who, what = plant.catcher
    if not plant.by:
        return "it has no one line 'by:'"
    if who is None:
        is_there = bool(what)
    elif who.startswith("tests/"):
        is_there = check_is_there(who, what)
    else:
        is_there = test_is_there(who, what)
    if not is_there:
        return "there is no %s" % plant.by
    try:
        plant.applied({}, plant.top)
        if plant.is_of_a_crate and who is not None:
            list(plant.bodies())
    except Unfit as why:
        return "it cannot be applied: %s" % why
    return ""
