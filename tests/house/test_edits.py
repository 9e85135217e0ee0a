"""What `make edits` tells of the edits of a small crate that is made for them."""

import fcntl
import itertools
import os
import re
import shutil
import subprocess
import tempfile
import threading
from concurrent.futures import ThreadPoolExecutor

from edit_checks import TAKING, Said, take
from edit_copies import Group
from edit_texts import Edit, functions_of
from support.cases import sentence
from support.program import ROOT
from support.skipping import needs


CRATE = """//! Small sums.
#![tactic(auto)]

ghost use Rattle.std.specs.Prelude.{◌≡◌, ◌+◌, ◌≤◌};

const STEP: u8 = 3;

/// One more.
fn next(n: u8) -> u8
    requires { n ≤ 9 }
    ensures { result ≡ n + 1 }
{
    let sum = n + 1;
    sum
}

/// Two more.
pub fn second(n: u8) -> u8
    requires { n ≤ 8 }
    ensures { result ≡ n + 2 }
{
    let first = next(n);
    next(first)
}

/// A step more.
pub fn third(n: u8) -> u8
    requires { n ≤ 7 }
    ensures { result ≡ n + 3 }
{
    n + STEP
}

/// Four more.
fn fourth(n: u8) -> u8
    requires { n ≤ 6 }
    ensures { result ≡ n + 4 }
{
    n + 4
}

/// Nothing, whatever it begins with.
fn nothing(n: u8) -> u8
    ensures { result ≡ 0 }
{
    if n == 0 { n } else { nothing(n - 1) }
}
"""

# What one function's proof has of its own, and what one that calls itself has.
PROOFS = {
    "fourth/Answers": """use Rattle.std.proofs.Common.{rules}
use Rattle.sums.proofs.fourth.Goals as goal

pub returns : goal.returns
returns c = search rules
""",
    "+nothing/Invariants": """use Rattle.sums.proofs.+nothing.Given as goal

abbrev pub decreases-nothing : goal.decreases-nothing
decreases-nothing l = l.n
""",
}

# Each by its old text and its new one. They are tried in this order, so that `next.same` stands
# beside a refused edit of its caller, and `second.same` calls what another edit has refused.
EDITS = {
    "must-fail/a.does_not_compile": ("n + STEP", "n + STRIDE"),
    "must-fail/next.same": ("let sum = n + 1;", "let sum = 1 + n;"),
    "must-fail/second.one_step": ("next(first)", "first"),
    "edits/constant": ("u8 = 3", "u8 = 4"),
    "edits/constant.more": ("u8 = 3", "u8 = 5\nrefuses: third"),
    "edits/constant.of_another.same": ("u8 = 3", "u8 = 2\nrefuses: second"),
    "edits/next.two_steps": ("let sum = n + 1;", "let sum = n + 2;\ntakes: long"),
    "edits/second.same": ("let first = next(n);", "let first = n + 1;"),
    "edits/fourth.less": ("    n + 4", "    n + 3"),
    "edits/fourth.same": ("    n + 4", "    4 + n"),
    "edits/nothing.for_ever": ("nothing(n - 1)", "nothing(n)"),
    "edits/third.nowhere": ("n + STRIDE", "n"),
    "edits/third.twice": ("pub fn", "fn"),
}
FAIL = ("does_not_compile", "same", "nowhere", "twice")

# A crate of which one function has an edit, and the other one is wrong.
APART = """//! Sums apart.
#![tactic(auto)]

ghost use Rattle.std.specs.Prelude.{◌≡◌, ◌+◌, ◌≤◌};

/// One more.
pub fn after(n: u8) -> u8
    requires { n ≤ 9 }
    ensures { result ≡ n + 1 }
{
    n + 1
}

/// One more, as it says.
pub fn wrong(n: u8) -> u8
    requires { n ≤ 9 }
    ensures { result ≡ n + 1 }
{
    n
}
"""


class Tried:
    """A repository with the crate, where `make edits` is called with all edits, then with those
    that are to be refused, and at last over all crates, of which one is new."""

    made, making = None, threading.Lock()

    def __init__(self):
        needs("make", "rt")
        with tempfile.TemporaryDirectory(prefix="ymodem-") as top:
            self.top = os.path.join(top, "a tree")
            shutil.copytree(os.path.join(ROOT, "tools"), os.path.join(self.top, "tools"))
            shutil.copy2(os.path.join(ROOT, "Makefile"), self.top)
            self.write("crates.txt", "sums:\n")
            self.write("HANDLES", "Handles allowed: none.\n")
            self.write("crates/sums/src/lib.rt", CRATE)
            for name, text in PROOFS.items():
                self.write("crates/sums/proofs/%s.antt" % name, text)
            for name, pair in EDITS.items():
                text = "file: src/lib.rt\nold: %s\nnew: %s\n" % pair
                self.write("crates/sums/%s.edit" % name, text)
            self.all = self.make("edits", "CRATES=sums", "JOBS=2")
            for name in EDITS:
                if name.endswith(FAIL):
                    os.remove(os.path.join(self.top, "crates", "sums", name + ".edit"))
            self.refused = self.make("edits", "EVERY=1")
            self.write("crates.txt", "sums:\napart:\n")
            self.write("crates/apart/src/lib.rt", APART)
            edit = "file: src/lib.rt\nold:     n + 1\nnew:     n + 2\n"
            self.write("crates/apart/edits/after.two_steps.edit", edit)
            self.seen = self.make("edits")
            self.words = self.make("-n", "edits", "ANEW=1", "CRATES=sums")

    @classmethod
    def once(cls):
        with cls.making:
            cls.made = cls.made or cls()
            return cls.made

    def write(self, name, text):
        path = os.path.join(self.top, name)
        os.makedirs(os.path.dirname(path), exist_ok=True)
        with open(path, "w", encoding="utf-8") as it:
            it.write(text)

    def make(self, *words):
        """What make came to: its status, and its lines."""
        words = ["make", "--no-print-directory", "-C", self.top, *words]
        ran = subprocess.run(words, capture_output=True, text=True, check=False)
        assert re.sub(r"make(\[\d+\])?: \*\*\* .*\n", "", ran.stderr) == "", "what went wrong"
        return ran.returncode, ran.stdout.splitlines()


def fails(name, why):
    """One line names the edit, and says why it fails."""
    lines = Tried.once().all[1]
    told = [it for it in lines if it.startswith("FAILED") and "/%s.edit: " % name in it]
    assert len(told) == 1 and why in told[0], "%s is to fail as %r: %s" % (name, why, lines)


@sentence("edits that are still proved, beside refused ones")
def test_proved():
    fails("must-fail/next.same", "still proved")
    fails("edits/second.same", "still proved")
    fails("edits/fourth.same", "still proved")


@sentence("edits of one function are each judged")
def test_two_of_one_function():
    """The one that fails is told, and the other one is counted as passed."""
    status, lines = Tried.once().all
    assert status == 2, "its status"
    assert lines[-1] == "6 passed, 7 failed", "its last line"
    assert sum(it.startswith("FAILED") for it in lines) == 7, "its failures"


@sentence("an edit of a constant, where the function that it names is proved")
def test_law():
    """It says which one has to be refused. Another one is."""
    fails("edits/constant.of_another.same", "still proved")


@sentence("edits that cannot be applied")
def test_not_applied():
    fails("edits/third.nowhere", "cannot be applied: an 'old:' text is in src/lib.rt 0 times")
    fails("edits/third.twice", "cannot be applied: an 'old:' text is in src/lib.rt 2 times")


@sentence("edits that do not compile")
def test_not_compiled():
    fails("must-fail/a.does_not_compile", "cannot be read: src/lib.rt:31:9: error")


def runs_of(begins):
    """The runs whose lines begin so, without what they took."""
    lines = [it for it in Tried.once().all[1] if it.startswith("sums: " + begins)]
    return sorted(it.rpartition(",")[0].removeprefix("sums: ") for it in lines)


@sentence("edits of functions share a check, on copies of these")
def test_copies():
    """Two of them are of one function. One of a function that calls itself is made where that
    stands. What does not compile is left out of the next check."""
    assert runs_of("copies") == ["copies again, 7 edits", "copies, 8 edits"], "its checks of copies"


@sentence("edits that copies leave open are tried where the functions stand")
def test_in_place():
    """Those whose copies are proved; and the one that does not compile. That of a constant is tried
    alone."""
    wanted = ["run 1 of 1, 3 edits", *("run %d of 4, 1 edit" % it for it in (1, 2, 3, 4))]
    assert runs_of("run") == wanted, "its runs"


@sentence("the edits that took longest are told")
def test_dearest():
    """Of those that could be tried, the dearest first."""
    lines = Tried.once().all[1]
    at = next(it for it, line in enumerate(lines) if "; the dearest:" in line)
    assert re.match(r"11 edits took \d+ processor seconds; ", lines[at]), lines[at]
    told = [re.fullmatch(r" *(\d+\.\d)  sums/(.*)\.edit", it) for it in lines[at + 1 :]]
    took = [float(it[1]) for it in told if it]
    assert took == sorted(took, reverse=True) and 0 < took[0], "what they took: %s" % took
    named = sorted(it[2] for it in told if it)
    assert named == sorted(it for it in EDITS if not it.endswith(FAIL[2:])), "their names"


PLAIN, OTHER = "sums::fourth_copy_1", "sums::fourth_copy_2"


def fourth(folder):
    """The copies of a function that has files of proof."""
    for name, text in PROOFS.items():
        path = os.path.join(folder, "proofs", name + ".antt")
        os.makedirs(os.path.dirname(path), exist_ok=True)
        with open(path, "w", encoding="utf-8") as it:
            it.write(text)
    os.makedirs(os.path.join(folder, "src"))
    with open(os.path.join(folder, "src", "lib.rt"), "w", encoding="utf-8") as it:
        it.write(CRATE)
    file = os.path.join(folder, "fourth.edit")
    with open(file, "w", encoding="utf-8") as it:
        it.write("file: src/lib.rt\nold:     n + 4\nnew:     n + 3\n")
    edit = Edit(file)
    edit.look(folder)
    return Group([edit], "sums::fourth", itertools.count(1))


@sentence("copies show nothing where the one without an edit is not proved")
def test_plain_copy():
    own, calls = "no proof: expected answers", "not proved: it calls sums::next, which is refused"
    with tempfile.TemporaryDirectory(prefix="ymodem-") as folder:
        group = fourth(folder)

        def shows(plain):
            states = {"sums::fourth": "proved", PLAIN: plain, OTHER: own}
            lines = ["fn %s: %s" % it for it in states.items() if it[1]]
            return group.shows("sums", Said("sums", "\n".join(lines)), folder)

        assert shows("proved") and shows(calls), "with one that is proved, by itself"
        assert not shows(own) and not shows(None), "with one that is refused, or is not told of"
        shutil.rmtree(os.path.join(folder, "proofs", "fourth"))
        assert not shows("proved"), "with no files of proof where the function stands"


@sentence("a copy has its function's files of proof, under its own name")
def test_copied_proof():
    with tempfile.TemporaryDirectory(prefix="ymodem-") as folder:
        group = fourth(folder)
        group.write_proofs("sums", folder)
        for name in ("fourth_copy_1", "fourth_copy_2"):
            with open(os.path.join(folder, "proofs", name, "Answers.antt"), encoding="utf-8") as it:
                assert "use Rattle.sums.proofs.%s.Goals as goal" % name in it.read(), name
        assert [it.text.splitlines()[1] for it in group.copies()] == [
            "fn fourth_copy_1(n: u8) -> u8",
            "fn fourth_copy_2(n: u8) -> u8",
        ], "their heads"


# What a run tells that has nothing to try.
NOTHING = "0.0 processor minutes, 0.0 of them for the crates' own proofs"


@sentence("edits that are settled are not tried again")
def test_settled():
    assert Tried.once().refused == (0, [NOTHING, "6 passed, 0 failed"]), "the second run"
    status, lines = Tried.once().words
    assert (status, lines[0].split()) == (0, ["tools/edits.py", "--anew", "sums"]), "its words"


@sentence("over all crates those that take long are left out")
def test_left_out():
    """They are tried where their crate is named."""
    status, lines = Tried.once().seen
    left_out = "1 that take long were left out: --every tries them too"
    assert (status, lines[-2:]) == (0, [left_out, "6 passed, 0 failed"]), "the last run"


@sentence("what no edit changes is not proved for the edits")
def test_no_more_is_proved():
    """A function that is wrong stands beside the one that is edited."""
    lines = Tried.once().seen[1]
    told = [it.rpartition(",")[0] for it in lines if it.startswith("apart: ")]
    assert told == ["apart: its own proof", "apart: copies, 1 edit"], "its checks"


PLACES = """pub fn free() {}
struct Here<T> { it: T }
impl<T> Here<T> { fn own() {} }
impl There { fn far() {} }
impl From<There> for Here<u8> { fn from() {} }
trait Draw { fn draw() {} }
mod inner { fn deep() {} }
"""


@sentence("the prover is asked for a function by the path that its text tells")
def test_paths():
    """That of a trait's function, or of a type that is declared elsewhere, is its module's."""
    paths = "low::free low::Here::own low low low low::inner::deep"
    assert [it.stands() for it in functions_of("src/low.rt", PLACES)] == paths.split(), "in a module"
    at_root = [it.stands() for it in functions_of("src/lib.rt", PLACES)]
    assert at_root == ["free", "Here::own", "", "", "", "inner::deep"], "in the crate's root"
    own = functions_of("src/low.rt", PLACES)[1]
    assert own.stands("own_copy_1") == "low::Here::own_copy_1", "of a copy"


def with_library(top):
    """A crate that has a library of many files."""
    crate = os.path.join(top, "low")
    made = os.path.join(crate, "out", "rlib")
    os.makedirs(made)
    for at in range(500):
        with open(os.path.join(made, "%d.oantt" % at), "w", encoding="utf-8"):
            pass
    return crate


@sentence("a library is taken behind an rt that is at work there")
def test_taken_behind_rt():
    """It is waited for: what is not taken would be proved again."""
    with tempfile.TemporaryDirectory(prefix="ymodem-") as top:
        crate = with_library(top)
        held = os.open(crate, os.O_RDONLY)
        fcntl.flock(held, fcntl.LOCK_EX)
        with ThreadPoolExecutor(1) as pool:
            taken = pool.submit(take, crate, "rlib", os.path.join(top, "above"))
            while not TAKING.locked() and not taken.done():
                pass
            os.close(held)
            assert taken.result(), "whether it could"
        assert len(os.listdir(os.path.join(top, "above", "out", "rlib"))) == 500, "what it took"


@sentence("crates whose edits begin at once take the same library")
def test_taken_at_once():
    """None of them takes another one for an rt that is at work there."""
    with tempfile.TemporaryDirectory(prefix="ymodem-") as top:
        crate = with_library(top)
        places = [os.path.join(top, "above", str(at)) for at in range(8)]
        with ThreadPoolExecutor(len(places)) as pool:
            taken = list(pool.map(lambda it: take(crate, "rlib", it), places))
        assert all(taken), "which ones took it: %s" % taken
