"""What `make play`, `make build`, `make check` and the gate show, with a stand-in for `rt` that
proves nothing and says what `rt` says."""

import contextlib
import os
import shlex

from support.cases import sentence
from support.program import ROOT
from support.terminal import UnderTerminal
from support.tree import session, tree
from support.waits import wait_until


# What `make build` calls of a toolchain that keeps what `rt ci` proves: the long row is proved
# beside the rest, where the memory holds both.
AHEAD = "ci ym_sending ym_receiving"
PROVES = (["ci"], ["ci", AHEAD])
NOT_PROVED = "this run is not proved: make build proves it (minutes the first time)\n"


def crates_below(*tops):
    """The crates that these are made of, with their own."""
    with open(os.path.join(ROOT, "crates.txt"), encoding="utf-8") as it:
        lines = dict(line.partition(":")[::2] for line in it if line.strip())
    used = {name.split()[0]: line.split() for name, line in lines.items()}
    found, left = set(), [*tops]
    while left:
        name = left.pop()
        if name in used and name not in found:
            found.add(name)
            left += used[name]
    return found


def crates_of_program():
    """How many crates the program is made of, with its own."""
    return len(crates_below("ymodem"))


def wants_libraries(called, count):
    """So many crates have to be proved, side by side, and then the program."""
    assert called[-1:] == ["run"], "the last call: %r" % called
    assert [it.rpartition(" ")[0] for it in called[:-1]] == ["lib --jobs"] * count, "its calls"


def has(text, *wanted):
    for it in wanted:
        assert it in text, "%r is not in %r" % (it, text)


@sentence("make play, before and after a build")
def test_play():
    """It plays without proofs where nothing is built or a source has changed, and by the program
    else."""
    with tree() as it:
        status, out, err = it.make("play")
        assert (status, out, it.called()) == (0, session(), ["try -- play"]), "the first play"
        has(err, NOT_PROVED)
        assert it.make("build")[0] == 0, "the build"
        wants_libraries(it.called(), crates_of_program() - 1)
        assert (*it.make("play"), it.called()) == (0, session(), "", []), "play where it is built"
        os.utime(
            os.path.join(it.top, "crates", "ym_check", "src", "check.rt"),
            (2**32 - 1, 2**32 - 1),
        )
        status, out, err = it.make("play")
        assert (status, out, it.called()) == (0, session(), ["try -- play"]), "play behind an edit"
        has(err, NOT_PROVED)


@sentence("make play of a tree that is wrong")
def test_play_that_fails():
    with tree() as it:
        it.mark("wrong")
        status, out, err = it.make("play")
        assert (status, out) == (2, ""), "its status and output"
        has(err, "error: not so")


@sentence("make build shows which crate it proves")
def test_build():
    """The crates are proved side by side, and then the program. Later those that changed are, and
    what stands on them. What rt said is kept, and shown where it fails."""
    with tree() as it:
        status, out, err = it.make("build")
        assert (status, out) == (0, ""), "its status and output"
        count = crates_of_program()
        wants_libraries(it.called(), count - 1)
        has(
            err,
            "proving %d crates (0:" % (count - 1),
            "proved 1 of %d crates, the last one ym_" % (count - 1),
            "proved %d of %d crates, the last one ym_command (" % (count - 1, count - 1),
            "proving crate %d of %d, ymodem (" % (count, count),
            "is proved and built (",
        )
        assert (it.make("build")[0], it.called()) == (0, []), "a second build"
        it.edit("ym_judged")
        assert it.make("build")[0] == 0, "a build behind an edit"
        wants_libraries(it.called(), len({"ym_judged", "ym_command"}))
        it.edit("ym_check")
        it.mark("wrong")
        status, out, err = it.make("build")
        assert (status, out) == (2, ""), "its status and output"
        has(err, "error: not so", "out/build.log")
        it.unmark("wrong")
        assert it.make("build")[0] == 0, "a build behind the mend"


@sentence("make build where the toolchain keeps what it proves")
def test_build_that_is_kept():
    """A line a crate where there is no terminal; what was proved is taken as it lies here; all that
    rt said is kept, and shown where it fails."""
    with tree(keeps=True) as it:
        status, out, err = it.make("build")
        assert (status, out) == (0, ""), "its status and output"
        assert sorted(it.called()) in PROVES, "its calls"
        count = crates_of_program()
        has(
            err,
            "proving %d crates (0:" % count,
            "proved 1 of %d crates, the last one ymodem (" % count,
            "is proved and built (",
        )
        assert err.count("\n") == 3, "the lines"
        assert (it.make("build")[0], it.called()) == (0, []), "a second build"
        it.edit("ym_check")
        it.mark("wrong")
        status, out, err = it.make("build")
        assert (status, out) == (2, ""), "its status and output"
        assert sorted(it.called()) in PROVES, "its calls"
        has(err, "FAILED: ym_check", "out/build.log")


@sentence("make build where the toolchain has kept nothing of these crates yet")
def test_build_before_anything_is_kept():
    """Then it goes as where the toolchain keeps nothing: that is quicker. Of a crate that is not one
    of the program's, and of a name that goes on, nothing is taken."""
    with tree(keeps=True) as it:
        for other in "proof-ym_checked-0", "proof-ym-0", "lock-proof-0":
            os.makedirs(os.path.join(it.kept, other))
        os.rmdir(os.path.join(it.kept, "proof-ym_check-0"))
        assert it.make("program")[0] == 0, "the build of the program alone"
        wants_libraries(it.called(), crates_of_program() - 1)


@sentence("make build over what stands here")
def test_build_over_what_stands_here():
    """Where crates were proved in this tree, what changed is proved over that, though the toolchain
    keeps what `rt ci` proves."""
    with tree(keeps=True) as it:
        os.makedirs(os.path.join(it.top, "crates", "ym_check", "out", "incremental"))
        status, out, err = it.make("build")
        assert (status, out) == (0, ""), "its status and output"
        wants_libraries(it.called(), crates_of_program() - 1)
        it.edit("ym_check")
        it.mark("wrong")
        status, out, err = it.make("build")
        assert (status, out) == (2, ""), "its status and output"
        has(err, "error: not so", "out/build.log")
        assert "proved\n" not in err, "it shows what went well: %r" % err


def interrupt_behind(it, told):
    """Builds under a terminal, and interrupts that once this was told and what is slow has begun."""
    shown = UnderTerminal([*it.words, "build"], cwd=it.top, env=it.environment)
    begun = os.path.join(it.calls, "process")
    try:
        shown.sees(told)
        wait_until(lambda: os.path.exists(begun) and os.path.getsize(begun), "the slow one begins")
        shown.type(b"\x03")
        shown.sees(b"interrupted: the next build goes on where this one was")
        shown.ended()
    finally:
        shown.stop()
    it.wants_ended()


@sentence("make build under a terminal, and interrupted")
def test_build_under_terminal():
    """One line, rewritten; an interrupt ends rt too, and it says how to go on."""
    with tree(keeps=True) as it:
        it.mark("slow")
        told = b"\r\x1b[Kproved 1 of %d crates, the last one ymodem, 0:" % crates_of_program()
        interrupt_behind(it, told)


@sentence("make build interrupted while it proves side by side")
def test_build_interrupted():
    """What was kept of a proof that did not end is there for the next build."""
    with tree() as it:
        it.mark("slow")
        # four are those that do not stand on `ym_check`, whose proof does not end
        interrupt_behind(it, b"\r\x1b[Kproved 4 of %d crates" % (crates_of_program() - 1))
        kept = os.path.join(it.top, "crates", "ym_check", "out")
        assert os.listdir(kept) == ["incremental"], "what was kept of it"
        assert not os.path.exists(os.path.join(it.top, "out", "rooms")), "its rooms"
        it.unmark("slow")
        it.called()
        assert it.make("build")[0] == 0, "the next build"
        wants_libraries(it.called(), crates_of_program() - 1 - 4)


@sentence("make check tries what changed")
def test_check():
    """The tests of the crates that changed since the last green run, where they stand, and no
    others."""
    with tree() as it:
        assert it.make("check")[0] == 0, "the first check"
        has(it.called(), "run", "try --test", "try")
        assert (it.make("check")[0], it.called()) == (0, []), "the second check"
        one = "lib --jobs %d" % len(os.sched_getaffinity(0))
        for crate, *calls in (
            ("ym_sending", one, one, "run", "try --test"),
            ("ym_words", one, one, one, "run", "try"),
            ("host_uses", "check", "try --test"),
        ):
            it.edit(crate)
            assert it.make("check")[0] == 0, "a check behind an edit of " + crate
            assert it.called() == calls, "its calls"


@sentence("make check where a case is answered otherwise")
def test_check_that_fails():
    """What a crate of tests finds of another one is found again, until that is mended."""
    with tree() as it:
        assert it.make("check")[0] == 0, "the first check"
        it.edit("ym_words")
        it.mark("else")
        for _ in range(2):
            status, _, err = it.make("check")
            assert status == 2, "its status"
            has(
                err,
                "-ymodem play: play\n",
                "+else\n",
                "changed since the last green run: ym_words; failed: words_cases",
            )
        it.unmark("else")
        assert it.make("check")[0] == 0, "a check behind the mend"
        it.called()
        assert (it.make("check")[0], it.called()) == (0, []), "the last check"


@sentence("make layout of sources that are not laid out")
def test_layout():
    """What the gate would refuse for its layout is told before anything is proved."""
    with tree() as it:
        assert it.make("layout") == (0, "", ""), "make layout"
        it.mark("loose")
        for goal in "layout", "check":
            status, out, err = it.make(goal)
            assert status == 2, "its status"
            has(err, " is not in the layout", "run rt fmt in the folder of its crate")
        assert it.called() == [], "calls of rt"


@sentence("the version in one place")
def test_version():
    """The version is set in all files that spell it, and one that spells another is told before
    anything is proved."""
    with tree() as it:
        assert it.run("tools/version.py", "set", "3.20.1") == (0, "", ""), "another version"
        assert it.run("tools/version.py") == (0, "3.20.1\n", ""), "what it is then"
        assert it.make("layout") == (0, "", ""), "make layout"
        page = os.path.join(it.top, "share", "man", "ymodem.1")
        with open(page, encoding="utf-8") as read:
            text = read.read()
        with open(page, "w", encoding="utf-8") as edited:
            edited.write(text.replace("3.20.1", "3.20.2"))
        status, out, _ = it.make("layout")
        assert status == 2, "its status"
        has(
            out,
            (
                "share/man/ymodem.1 spells 3.20.2, and the version is 3.20.1: tools/version.py set"
                " 3.20.1"
            ),
        )
        assert it.called() == [], "calls of rt"


# In place of pytest: it tells the folder and the program that it was given. Where the folder stands
# in the file `fails` a test of it fails.
TEST = """#!/bin/sh
for folder in "$@"; do :; done
name=$(basename "$folder")
echo "$name $YMODEM" >> "$CALLED/called"
if grep -qx "$name" "$CALLED/fails" 2> /dev/null; then
    while [ -e "$CALLED/late" ] && [ ! -e "$CALLED/process" ]; do sleep 0.1; done
    echo "a line that is not the one wanted"
    echo "1 failed, 2 passed in 0.01s"
    exit 1
fi
echo "SKIPPED [1] a_test.py:1: what the $name need: not installed"
echo "2 passed, 1 skipped in 0.01s"
"""
ROWS = (
    ("line", "disk", "words"),
    ("peers", "explain", "serial", "package"),
    ("sessions",),
    ("judge",),
    ("library", "portable"),
    ("web",),
    ("uboot", "boards"),
)
# Those that are made beside the proofs: of the last two the tests that need no program.
BESIDE = ("memory", "house", "portable", "web")
TESTS = [name for row in ROWS for name in row]
# The page is made of one of the archives once more.
TARGETS = [
    "x86_64-unknown-linux-gnu",
    "aarch64-unknown-linux-gnu",
    "wasm64-unknown-unknown",
    "wasm64-unknown-unknown",
]


@contextlib.contextmanager
def tree_with_gate(keeps=True):
    with tree(keeps) as it:
        stand_in = os.path.join(it.calls, "pytest")
        it.write(stand_in, TEST)
        it.environment["PYTEST"] = shlex.quote(stand_in)
        it.write("web/build.py", '#!/bin/sh\nmkdir -p "$2"\n')
        it.write("tools/portable.py", "#!/bin/sh\n")
        it.mark("below", "ym_check ym_frame ym_header ym_machine ym_core ym_heard ym_timing ym_line_c")
        yield it


@sentence("the gate, and beside it the tests of what it proved")
def test_gate():
    """The program is proved before it, alone. Memory, library and page go on beside the gate, the
    tests get the program that was built, and what the gate said comes last."""
    with tree_with_gate() as it:
        status, out, err = it.run("tools/gate.py")
        assert (status, err) == (0, ""), "its status"
        count = len(crates_below("ymodem"))
        has(out, "proving %d crates (0:" % count)
        called = it.called()
        assert called.index("ci") < called.index("lib --target " + TARGETS[0]), "what comes first"
        tests = ["%s %s/out/tried/ymodem" % (name, it.top) for name in TESTS]
        made = [call for call in called if call in tests]
        assert sorted(made) == sorted(tests), "its tests"
        for row in ROWS:
            places = [made.index(tests[TESTS.index(name)]) for name in row]
            assert places == sorted(places), "%s in turn" % ", ".join(row)
        beside = [
            "ci",
            "ci",
            *(call for call in called if call == AHEAD),
            *("%s %s" % (name, it.environment["YMODEM"]) for name in BESIDE),
            *("lib --target " + name for name in TARGETS),
        ]
        assert sorted(call for call in called if call not in tests) == sorted(
            beside
        ), "its other calls"
        assert out.splitlines()[-1] == "18 passed, 0 failed", "its last line"
        has(
            out,
            "the proof of the program took 0.",
            "gate, 0:0",
            " min: rt: ymodem proved\n",
            "tests/line: 2 passed, 0 failed, 1 skipped; 0.",
        )
        has(out, "SKIPPED [1] a_test.py:1: what the line need: not installed\n")
        count = len(TESTS) + len(BESIDE)
        told = "the tests of all folders: %d passed, 0 failed, %d skipped\n" % (2 * count, count)
        has(out, told)
        for goal in ("build", "check"):
            assert (it.make(goal)[0], it.called()) == (0, []), "make %s behind it" % goal


@sentence("the gate of a toolchain that keeps nothing")
def test_gate_that_keeps_nothing():
    """It alone proves, and its program is tried."""
    with tree_with_gate(keeps=False) as it:
        status, out, err = it.run("tools/gate.py")
        assert (status, err) == (0, ""), "its status"
        called = it.called()
        assert called.count("ci") == 1 and AHEAD not in called, "what proves"
        tests = {"%s %s/out/tried/ymodem" % (name, it.top) for name in TESTS}
        assert tests.issubset(called), "its tests"
        assert out.splitlines()[-1] == "18 passed, 0 failed", "its last line"
        assert (it.make("build")[0], it.called()) == (0, []), "a build behind it"


@sentence("the gate begins where at most two crates that are left are proved side by side")
def test_gate_beside_the_last_crates():
    """These do not need all processors."""
    transfers = {"ym_record", "ym_ends", "ym_sending", "ym_receiving"}
    last = {"ym_inspect", "ym_explained", *transfers, "ym_command", "ymodem"}
    with tree_with_gate() as it:
        it.mark("below", " ".join(sorted(crates_below("ymodem") - last) + ["ym_line_c"]))
        it.mark("first")
        status, out, _ = it.run("tools/gate.py")
        assert (status, out.splitlines()[-1]) == (0, "18 passed, 0 failed"), "how it ended"


@sentence("the gate where an edit is not refused")
def test_gate_that_refuses():
    with tree_with_gate() as it:
        it.mark("proves")
        status, out, _ = it.run("tools/gate.py")
        assert (status, out.splitlines()[-1]) == (
            1,
            "17 passed, 1 failed",
        ), "its status and its last line"


@sentence("the gate where the program is not proved")
def test_gate_without_a_program():
    """What `rt` said of it is shown, and the gate does not begin."""
    with tree_with_gate() as it:
        it.mark("wrong")
        status, out, _ = it.run("tools/gate.py")
        assert (status, out.splitlines()[-1]) == (
            1,
            "the proof of the program failed",
        ), "its status and its last line"
        has(out, "FAILED: ym_check", "out/build.log")
        assert it.called().count("ci") == 1, "its calls"


def gate_where(names, failed, slow):
    """The gate is stopped, with all that it started, and the last line is no verdict. Gives what
    was called."""
    with tree_with_gate() as it:
        it.mark("fails", names)
        it.mark(slow)
        status, out, _ = it.run("tools/gate.py")
        last = ["a line that is not the one wanted", "1 failed, 2 passed in 0.01s"]
        assert (status, out.splitlines()[-3:]) == (
            1,
            [*last, failed + " failed"],
        ), "its status and its last lines"
        it.wants_ended()
        return it.called()


@sentence("the gate where tests of two folders fail")
def test_gate_behind_tests_that_fail():
    """Those of all others are made before it is stopped, and both are told."""
    called = gate_where("line\njudge", "tests/line, tests/judge", "late")
    assert {call.split()[0] for call in called}.issuperset(TESTS), "its tests"


@sentence("the gate where pytest is not installed")
def test_gate_without_pytest():
    """All folders are skipped, and that is said. Where the packages were to be installed it fails."""
    with tree_with_gate() as it:
        it.write(os.path.join(it.calls, "pytest"), "#!/bin/sh\necho No module named pytest\nexit 1\n")
        it.write("tools/packages.sh", "#!/bin/sh\n")
        # it is set where this test is itself made so
        it.environment.pop("INSTALL", None)
        status, out, _ = it.run("tools/gate.py")
        assert (status, out.splitlines()[-1]) == (0, "18 passed, 0 failed"), "how it ended"
        folders = " ".join(sorted({"tests/" + name for name in [*TESTS, *BESIDE]}))
        why = "skipped, as pytest is not installed (tools/packages.sh install): "
        has(out, "the tests of all folders: %s%s\n" % (why, folders))
        it.environment["INSTALL"] = "install"
        status, out, _ = it.run("tools/gate.py")
        assert status == 1, "its status where they were to be installed"
        has(out, "No module named pytest")


@sentence("the gate where memory is not told")
def test_gate_behind_memory_that_fails():
    """Also where that is told before the program is proved."""
    gate_where("memory", "tests/memory", "slow")
