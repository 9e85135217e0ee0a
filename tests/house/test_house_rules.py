"""What `make layout` tells of a tree where a rule of the house is broken, or a count rose."""

import json
import os
import sys

from support.cases import sentence
from support.program import ROOT
from support.tree import tree

sys.path.insert(0, os.path.join(ROOT, "tools"))

import statements


PAGE, SOURCE, LIMITS = "docs/commands.md", "crates/ym_check/src/check.rt", "tools/house.json"
RECORDS = "record literals in contracts"


def appended(it, name, line):
    with open(os.path.join(it.top, name), "a", encoding="utf-8") as file:
        file.write(line + "\n")


def lines_of(name):
    with open(os.path.join(ROOT, name), encoding="utf-8") as file:
        return len(file.read().splitlines())


def told(it):
    status, out, _ = it.make("layout")
    return status != 0, out.splitlines()


@sentence("the house as it stands")
def test_as_it_stands():
    """Nothing is told of the tree as it is."""
    with tree() as it:
        assert told(it) == (False, []), "its layout"


@sentence("broken rules of the house")
def test_broken_rules():
    """Each broken rule is told, with its place."""
    with tree() as it:
        appended(it, PAGE, "\n[nowhere](nowhere.md) " + "x" * 100)
        appended(it, SOURCE, "// " + "x" * 100)
        assert told(it) == (
            True,
            [
                "links that lead nowhere: %s: nowhere.md" % PAGE,
                "lines of a page over 100 columns: %s:%d" % (PAGE, lines_of(PAGE) + 2),
                "lines of code and clauses over 100 columns: %s:%d"
                % (SOURCE, lines_of(SOURCE) + 1),
            ],
        ), "what it tells"


@sentence("long sentences")
def test_long_sentences():
    with tree() as it:
        appended(it, PAGE, "\n" + "\n".join(["one more word of it and another"] * 400) + ".")
        status, lines = told(it)
        assert (status, len(lines)) == (True, 1), "how many rules it breaks"
        rule, mean = lines[0].split(": " + PAGE + " has ")
        assert (rule, float(mean) > 18) == ("more than 18 words a sentence", True), "the rule"


@sentence("counts that rose")
def test_counts_that_rose():
    """A count that rose is told. One that fell is kept as it is then."""
    with tree() as it:
        it.run("tools/house.py", "keep")
        with open(os.path.join(it.top, LIMITS), encoding="utf-8") as file:
            kept = json.load(file)
        assert kept["lines of proofs"] == 0, "what a copy of the tree has none of"
        appended(it, SOURCE, "// record { .. }")
        rose = "%s: %d, which rose from %d" % (RECORDS, kept[RECORDS] + 1, kept[RECORDS])
        refuses, lines = told(it)
        assert (refuses, lines[0]) == (True, rose), "whether it refuses, and what it tells first"
        found = it.run("tools/house.py", "list")[1]
        assert ("%s: %s:" % (RECORDS, SOURCE) in found) == True, "the place"


PLANT = """file: src/system_folder.rt
old: file.write_%s(bytes)
new: Ok(())
by: host_uses::host::sinks::%s
"""
PLANTED = "crates/ym_host/plants/system_folder.append.once_more.edit"
CANNOT = "plants that cannot be tried: ym_host/system_folder.append.once_more: "
CATCHER = "a_file_gets_its_name_when_it_is_whole"


@sentence("plants out of step")
def test_plants_out_of_step():
    """A plant is told that changes what is not there, or names a test that is not there, and so is
    a table that lacks one."""
    with tree() as it:
        table = "tables of other bodies: docs/plants.md: tools/plants.py table writes it"
        it.write(PLANTED, PLANT % ("none", CATCHER))
        twice = (
            CANNOT
            + "it cannot be applied: an 'old:' text is in src/system_folder.rt 0 times, and not"
            " once"
        )
        assert told(it) == (True, [twice, table]), "what it tells of a text that is not there"
        it.write(PLANTED, PLANT % ("all", CATCHER + "_once"))
        nobody = CANNOT + "there is no host_uses::host::sinks::%s_once" % CATCHER
        assert told(it) == (True, [nobody, table]), "what it tells of a test that is not there"
        it.write(PLANTED, PLANT % ("all", CATCHER))
        assert it.run("tools/plants.py", "table")[0] == 0, "the table"
        assert told(it) == (False, []), "what it tells of a plant in the table"


EDIT = """file: src/check.rt
old: CheckState { value: %s }
new: CheckState { value: 0xffff }
"""
EDITED = "crates/ym_check/edits/check.new.once_more.edit"


@sentence("edits out of step")
def test_edits_out_of_step():
    """An edit that changes what is not there is told: nothing in the gate would be."""
    with tree() as it:
        it.write(EDITED, EDIT % "0")
        assert it.run("tools/plants.py", "table")[0] == 0, "the table"
        assert told(it) == (False, []), "what it tells of an edit in the table"
        it.write(EDITED, EDIT % "1")
        wrong = (
            "edits that cannot be applied: ym_check/check.new.once_more: an 'old:' text is in"
            " src/check.rt 0 times, and not once"
        )
        assert told(it) == (True, [wrong]), "what it tells of a text that is not there"


DEFINED = """-- what a part stands for
pub record Whole : Type 0 where
  pub part : Part  -- a comment

abbrev pub unread : ℕ
unread = 1

pub data Part : Type 0 where
  none : Part
  some : ℕ → Part

"""
NAMED = """use Rattle.ym_one.specs.One.{Whole as All}
use Rattle.ym_one.specs.One as one
abbrev pub IsSmall : All → Type 0
IsSmall whole =
    whole.part ≡ one.some 1
"""
CALL = """ghost use Rattle.ym_two.specs.Two.{IsSmall};

pub fn call<T>(whole: T) -> bool
    ensures small { IsSmall whole }
{
    true
}
"""


@sentence("what a call states")
def test_what_a_call_states(tmp_path):
    """The definitions that a call's clauses name are counted, with those that these name in turn."""
    for crate, file, text in (("ym_one", "One", DEFINED), ("ym_two", "Two", NAMED)):
        folder = tmp_path / crate / "specs"
        folder.mkdir(parents=True)
        (folder / (file + ".antt")).write_text(text, encoding="utf-8")
    (tmp_path / "call.rt").write_text(CALL, encoding="utf-8")
    found = statements.stated(tmp_path, tmp_path / "call.rt", "call")
    # without comments, blank lines and imports
    assert found == {"ym_one.One.Part": 3, "ym_one.One.Whole": 2, "ym_two.Two.IsSmall": 3}
