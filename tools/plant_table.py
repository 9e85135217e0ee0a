"""The tables of docs/ that list all wrong bodies, with what catches each: those that tests catch,
by the files of plants/, and those that the prover refuses, by those of must-fail/ and edits/."""

import os
import re

from edit_crates import CRATES, ROOT, Listed
from edit_texts import Edit, Unfit
from plant_files import all_plants, wrong_with

PLANTS, EDITS = "docs/plants.md", "docs/plants-refused.md"
# A part of a page that is written here stands between these.
BEGINS, ENDS = "<!-- %s: tools/plants.py table -->", "<!-- end of %s -->"
COLUMNS = 100
# A body that a page names: where it stands, and the name of its file.
NAMED = re.compile(r"`((?:ym|frame|link|port|line|host|jobs)\w*|share|include|web)/(\w+\.[\w.-]+)`")
TRIED = ("must-fail", "edits")


def edits_of(crate):
    """The edits of a crate, as the folder and the name of each."""
    for part in TRIED:
        there = os.path.join(CRATES, crate, part)
        names = sorted(os.listdir(there)) if os.path.isdir(there) else []
        yield from ((part, it.removesuffix(".edit")) for it in names if it.endswith(".edit"))


def rows(head, lines):
    made = ["| %s |" % " | ".join(head), "|%s" % ("---|" * len(head))]
    return made + ["| %s |" % " | ".join(it) for it in lines]


def by_tests():
    """A table for each home and each place of tests."""
    found = {}
    for plant in all_plants():
        who, what = plant.catcher
        found.setdefault((plant.home, who or "nobody"), []).append((plant, what))
    for (home, who), some in sorted(found.items()):
        of = "checks" if who.startswith("tests/") else "tests"
        yield "### `%s`, by %s of `%s`" % (home, of, who) if who != "nobody" else "### By nobody"
        yield ""
        lines = [("`%s`" % it.name.partition("/")[2], what) for it, what in some]
        if of == "tests" and who != "nobody":
            lines = [(name, "`%s`" % what) for name, what in lines]
        yield from rows(("What is wrong", "What fails"), lines)
        yield ""
    yield "%d bodies." % sum(map(len, found.values()))


def by_the_prover():
    """A table for each crate."""
    count = 0
    for crate in sorted(Listed().lines):
        found = list(edits_of(crate))
        if found:
            count += len(found)
            yield "## `%s`" % crate
            yield ""
            yield from rows(("What is wrong", "In"), [("`%s`" % it, part) for part, it in found])
            yield ""
    yield "%d bodies." % count


TABLES = {PLANTS: ("plants", by_tests), EDITS: ("edits", by_the_prover)}


def text_of(page):
    with open(os.path.join(ROOT, page), encoding="utf-8") as it:
        return it.read()


def written(page):
    """The page as it has to be."""
    name, table = TABLES[page]
    begins, ends = BEGINS % name, ENDS % name
    ahead, _, rest = text_of(page).partition(begins)
    _, _, behind = rest.partition(ends)
    return "%s%s\n\n%s\n\n%s%s" % (ahead, begins, "\n".join(table()), ends, behind)


def write_all():
    for page in TABLES:
        text = written(page)
        with open(os.path.join(ROOT, page), "w", encoding="utf-8") as it:
            it.write(text)
    return 0


# ---- What the house asks of them. Each gives what breaks it.


def plants_that_cannot_be_tried():
    for plant in all_plants():
        why = wrong_with(plant)
        if why:
            yield "%s: %s" % (plant.name, why)


def edits_that_cannot_be_applied():
    """The gate takes such an edit for none, and says nothing of it in its last line."""
    for crate in sorted(Listed().lines):
        top = os.path.join(CRATES, crate)
        for part, name in edits_of(crate):
            try:
                Edit(os.path.join(top, part, name + ".edit")).applied({}, top)
            except Unfit as why:
                yield "%s/%s: %s" % (crate, name, why)


def tables_of_other_bodies():
    for page in TABLES:
        if written(page) != text_of(page):
            yield "%s: tools/plants.py table writes it" % page


def bodies_that_are_not_there():
    """A page names a body as it stands among the plants or the edits."""
    there = {it.name for it in all_plants()}
    there |= {"%s/%s" % (crate, it) for crate in Listed().lines for _, it in edits_of(crate)}
    for page in (PLANTS, "docs/proved.md"):
        named = {"/".join(it) for it in NAMED.findall(text_of(page))}
        yield from ("%s names %s" % (page, it) for it in sorted(named - there))


RULES = {
    "plants that cannot be tried": plants_that_cannot_be_tried,
    "edits that cannot be applied": edits_that_cannot_be_applied,
    "tables of other bodies": tables_of_other_bodies,
    "bodies that are not there": bodies_that_are_not_there,
}
