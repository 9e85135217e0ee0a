#!/usr/bin/env python3
"""Plants wrong bodies, one at a time in a copy, and tells for each by what it is caught.

Most wrong bodies are refused by the prover, and stand as edits: `make edits` tries those. The
plants are bodies that no contract refuses. plant_files.py says how one is written, and what may
catch it.

The prover is asked first. A plant of a crate that it refuses belongs among the edits by now, and
fails here. Then the catcher that is named has to pass without the plant, and to fail with it. One
that never ends has failed, too. What it said is kept in out/plants. The last line is 'N passed, M
failed'.

usage: plants.py [--tests | --prover] [--jobs N] [HOME | HOME/NAME]..
       plants.py table
  --tests   asks tests alone, and not the prover
  --prover  asks the prover alone
  --jobs N  so many checks of the prover at a time; else as many as there are processors
  HOME      only the plants of this crate, or of share, include or web
  NAME      only the plants whose names begin so
  table     writes the tables of docs/ that list all plants and all edits
"""

import os
import re
import shutil
import subprocess
import sys
import tempfile
from concurrent.futures import ThreadPoolExecutor

sys.dont_write_bytecode = True

import checks
import edits
import plant_table
import plant_trees
from edit_crates import ROOT, Listed
from edit_texts import Unfit
from plant_files import NOTHING, PLANTS, all_plants, wrong_with
from plant_trees import NotBuilt, built, copied, environment_of, loader, room, stand_beside, write

NO_VERDICT = "the prover came to no verdict"
REFUSED = "the prover refuses it: it is an edit"
# Seconds for a test of a crate, and for a check. A check waits so long for what it needs to see.
TEST_TAKES, CHECK_TAKES, CHECK_WAITS = 75, 240, 60
AT_ONCE = 4
# What each catcher said.
SAID = os.path.join(ROOT, "out", "plants")
# What is made ahead of the checks of what is shipped beside the program.
ARCHIVES = os.path.join(ROOT, "out", "lib")
PAGE = "lib/wasm64-unknown-unknown/libymodem.a"


class Plants(edits.Trial):
    """The plants of a crate, as the prover judges them."""

    parts, are_proved = (PLANTS,), True

    def count(self, edit, why):
        """A plant that is still proved is what tests are asked of: told below."""


def proved(plants, lanes):
    """What the prover has against each plant: nothing, where its crate is still proved with it."""
    listed, told = Listed(), {}
    names = sorted({it.home for it in plants if it.is_of_a_crate})
    for trial in edits.tried(listed, edits.Choice(names, lanes=lanes), Plants):
        for plant in (it for it in plants if it.home == trial.name):
            why = trial.settled.why(plant)
            told[plant] = {edits.PROVED: "", "": REFUSED, None: NO_VERDICT}.get(why, why)
    return told


def status_of(words, folder, number, seconds, **more):
    """How a command ends, and what it says; no status where it takes longer."""
    how = {"stdin": subprocess.DEVNULL, "stdout": subprocess.PIPE, "stderr": subprocess.STDOUT}
    try:
        how["env"] = environment_of(number, **more)
        ran = subprocess.run(words, cwd=folder, timeout=seconds, check=False, **how)
    except subprocess.TimeoutExpired:
        return None, "it took more than %d s" % seconds
    return ran.returncode, ran.stdout.decode(errors="replace")


class Tests:
    """The tests of a crate, with plants."""

    def __init__(self, crate, numbered, made):
        self.top = copied(os.path.join(made, "top"))
        stand_beside(numbered, self.top)
        folder = os.path.join(self.top, "crates", crate)
        self.program = built(folder, ["--test"], os.path.join(made, "tests"))

    def fails(self, test, number):
        """Whether a test fails with the plant of this number, and what it said."""
        with tempfile.TemporaryDirectory(prefix="planted-") as here:
            words = [*loader(), self.program, test]
            status, said = status_of(words, here, number, TEST_TAKES)
        return status != 0, said


class Checks:
    """The tests of tests/, over the program with plants, and over copies in which what is shipped
    beside it has one."""

    def __init__(self, _, numbered, made):
        self.plants, self.top = dict(numbered), os.path.join(made, "top")
        of_crates = [it for it in numbered if it[1].is_of_a_crate]
        stand_beside(of_crates, copied(self.top))
        folder = os.path.join(self.top, "crates", "ymodem")
        os.makedirs(os.path.join(folder, "out"))
        self.program = built(folder, ["--", "--version"], os.path.join(folder, "out", "ymodem"))
        self.make_ready(self.top, {it.home for it in self.plants.values()})

    def make_ready(self, top, homes):
        """Makes of a copy what its checks ask for, where plants of these homes are tried there."""
        if homes & {"include", "web"}:
            if not os.path.isdir(ARCHIVES):
                raise NotBuilt("the library is not built: make lib")
            shutil.copytree(ARCHIVES, os.path.join(top, "out", "lib"))
        if "web" in homes:
            words = [os.path.join(top, "web", "build.py"), os.path.join(top, "out", PAGE)]
            status, said = status_of([*words, os.path.join(top, "out", "web")], top, 0, 60)
            if status:
                raise NotBuilt(said[-300:])

    def with_plant_beside(self, plant, number):
        """A copy in which a plant of what is shipped beside the program is."""
        top = copied(os.path.join(os.path.dirname(self.top), "beside-%d" % number))
        for path, text in plant.applied({}, plant.top).items():
            write(os.path.join(top, plant.home, path), text)
        self.make_ready(top, {plant.home})
        return top

    def fails(self, by, number):
        """Whether a check fails with the plant of this number, and what it said."""
        folder, _, check = by.partition(" ")
        plant, top = self.plants.get(number), self.top
        if plant and not plant.is_of_a_crate:
            top, number = self.with_plant_beside(plant, number), 0
        more = {"YMODEM": self.program, "LIMIT": str(CHECK_WAITS)}
        words = checks.words_of(os.path.join(top, folder), "--check", check, "-rA")
        status, said = status_of(words, top, number, CHECK_TAKES, **more)
        told = r"^%%s \S+\[%s" % re.escape(check)
        if status is None or re.search(told % "(FAILED|ERROR)", said, re.M):
            return True, said
        if not re.search(told % "PASSED", said, re.M):
            raise NotBuilt("it is not made here: %s" % said.strip()[-300:])
        return False, said


def why_not(tried, plant, number, passes):
    """Why a plant is not caught by what it names, or no word where it is."""
    what = asked_of(plant)
    try:
        if not passes(what):
            return "%s fails without it, too" % plant.by
        has_failed, said = tried.fails(what, number)
        write(os.path.join(SAID, plant.name), said)
        return "" if has_failed else "%s does not fail" % plant.by
    except (NotBuilt, Unfit) as why:
        return str(why)


def asked_of(plant):
    """What is asked of those that have to catch a plant: a test of their own, or a whole check."""
    who, what = plant.catcher
    return plant.by if who.startswith("tests/") else what


def judged(who, kind, plants, made):
    """Tries plants that one crate of tests, or tests of tests/, have to catch. Gives each, and why
    it is not caught."""
    numbered = list(enumerate(plants, 1))
    try:
        tried = kind(who, numbered, made)
    except (NotBuilt, Unfit) as why:
        yield from ((it, "nothing can be tried with it: %s" % why) for it in plants)
        return
    with ThreadPoolExecutor(AT_ONCE) as pool:
        begun = {it: pool.submit(tried.fails, it, 0) for it in sorted(set(map(asked_of, plants)))}

        def passes(what):
            return not begun[what].result()[0]

        asked = [(it, pool.submit(why_not, tried, it, at, passes)) for at, it in numbered]
        yield from ((it, why.result()) for it, why in asked)


def groups(plants):
    """Plants that are tried together, with who has to catch them, and how that is tried."""
    found = {}
    for plant in plants:
        who, _ = plant.catcher
        found.setdefault("tests/" if who.startswith("tests/") else who, []).append(plant)
    for who, some in sorted(found.items()):
        yield who, Checks if who == "tests/" else Tests, some


def tell(plant, why):
    print("%s: %s" % (plant.name, "FAILED  " + why if why else plant.by), flush=True)
    return bool(why)


def chosen(words):
    """The plants that these words name; all of them where there is none."""
    return [
        it
        for it in all_plants()
        if not words or any(it.home == word or it.name.startswith(word) for word in words)
    ]


def options(words):
    """What is asked, how many checks of the prover at a time, and the plants that are named."""
    asks, lanes = {"--tests", "--prover"}, len(os.sched_getaffinity(0))
    if "--jobs" in words[:-1]:
        at = words.index("--jobs")
        lanes, words = int(words[at + 1]), words[:at] + words[at + 2 :]
    asked = asks - set(words) if len(asks & set(words)) != 1 else asks & set(words)
    plants = chosen([it for it in words if it not in asks])
    if not plants or any(it.startswith("-") for it in words if it not in asks):
        sys.exit(__doc__)
    return asked, lanes, plants


def main(words):
    if words == ["table"]:
        return plant_table.write_all()
    asked, lanes, plants = options(words)
    told = {it: wrong_with(it) for it in plants}
    if "--prover" in asked:
        told.update(proved([it for it in plants if not told[it]], lanes))
    failed = sum(tell(it, why) for it, why in told.items() if why)
    left = [it for it in plants if not told[it]]
    done = [it for it in left if it.by.startswith(NOTHING) or "--tests" not in asked]
    failed += sum(tell(it, "") for it in done)
    for who, kind, some in groups([it for it in left if it not in done]):
        with room() as made:
            failed += sum(tell(it, why) for it, why in judged(who, kind, some, made))
    print("%d passed, %d failed" % (len(plants) - failed, failed))
    return 1 if failed else 0


if __name__ == "__main__":
    sys.exit(main(sys.argv[1:]))
