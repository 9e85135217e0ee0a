"""A copy of the tree, where a stand-in for `rt` proves nothing and says what `rt` says."""

import contextlib
import os
import shutil
import subprocess
import tempfile

from support.program import PROGRAM, ROOT
from support.skipping import needs
from support.waits import wait_until


# It tells what it was called with in the file `called`. Where the file `slow` is there, `rt run`,
# `rt ci` and the `rt lib` of the lowest crate wait for their end, and where `else` is there, a
# program for tests prints something else than its cases want. `below` has the crates that `rt ci`
# proves first. Where `late` or `proves` is there, `rt ci` waits so in the whole tree alone, or says
# that an edit was not refused. Where `first` is there, that of the program's crates waits until the
# other one was called. Of named crates it proves nothing.
STAND_IN = r"""#!/bin/sh
[ "$1" = version ] || echo "$*" >> "$CALLED/called"
case $1 in
version)
    echo "a toolchain"
    ;;
run)
    echo "logic: read"
    echo "rt: chose --jobs 4 for ym_check"
    echo "so far: 40 of 91 functions checked"
    echo "fn ym_check::check16: proved"
    [ ! -e "$CALLED/slow" ] || { echo $$ > "$CALLED/process"; exec sleep 1000; }
    [ ! -e "$CALLED/wrong" ] || { echo "src/check.rt:1:1: error: not so"; exit 1; }
    echo "rt: chose --jobs 4 for ymodem"
    cmp -s "$YMODEM" out/ymodem || { mkdir -p out && cp "$YMODEM" out/ymodem; }
    ;;
lib)
    mkdir -p out/incremental
    case $PWD in
    */rooms/ym_check/*)
        [ ! -e "$CALLED/wrong" ] || { echo "src/check.rt:1:1: error: not so"; exit 1; }
        [ ! -e "$CALLED/slow" ] || { echo $$ > "$CALLED/process"; exec sleep 1000; }
        ;;
    esac
    case $PWD in
    */rooms/*) mkdir -p out/rlib && echo "$*" > out/rlib/stamp ;;
    *) echo "$*" > out/libym_c.a ;;
    esac
    ;;
ci)
    [ -z "$2" ] || exit 0
    [ ! -e "$CALLED/slow" ] || echo $$ > "$CALLED/process"
    for name in $(cat "$CALLED/below" 2> /dev/null); do
        mkdir -p "crates/$name/out/rlib"
        echo "rt: $name proved"
    done
    while [ -e "$CALLED/first" ] && [ "$(grep -c '^ci$' "$CALLED/called")" -lt 2 ]; do
        sleep 0.1
    done
    for name in line_cases port_cases ymodem; do
        mkdir -p "crates/$name/out" && cp "$YMODEM" "crates/$name/out/$name"
        echo "rt: $name proved"
    done
    [ ! -e "$CALLED/slow" ] || exec sleep 1000
    if [ -e "$CALLED/late" ] && [ -d tools ]; then
        echo $$ > "$CALLED/process"
        exec sleep 1000
    fi
    if [ -e "$CALLED/wrong" ] || { [ -e "$CALLED/proves" ] && [ -d tools ]; }; then
        echo "rt: FAILED: ym_check/check.add.byte_shifted_in.edit"
        echo "17 passed, 1 failed"
        exit 1
    fi
    echo "18 passed, 0 failed"
    ;;
try)
    [ ! -e "$CALLED/wrong" ] || { echo "src/check.rt:1:1: error: not so" >&2; exit 2; }
    [ "$2" != -- ] || "$YMODEM" play
    [ -n "$2" ] || { [ -e "$CALLED/else" ] && echo else || cat stdout; }
    echo "checked: ended status=0" >&2
    echo "run=ended status=0 runners=1 proved=no" >&2
    ;;
esac
"""


# By this it is told that what `rt ci` proves is kept for another one.
KEEPS = "# It is kept in /opt/a-toolchain-kept.\n"


# The one for `rattle`, which lies beside `rt`. Where the file `loose` is there, a source is not
# laid out.
STAND_IN_BESIDE = r"""#!/bin/sh
[ ! -e "$CALLED/loose" ] || { echo "$3 is not in the layout" >&2; exit 1; }
"""


class Tree:
    """A fresh copy of the tree, in a folder with a space in its name, with the stand-ins on the
    path: of a toolchain that keeps what `rt ci` proves, and has kept a crate of the program, or of
    one that keeps nothing."""

    def __init__(self, top, keeps):
        self.top, self.calls = os.path.join(top, "a tree"), os.path.join(top, "calls")
        kit = os.path.join(top, "kit")
        self.kept, commands = kit + "-kept", os.path.join(kit, "bin")
        for it in (self.calls, commands, *[os.path.join(self.kept, "proof-ym_check-0")] * keeps):
            os.makedirs(it)
        names = [it for it in os.listdir(ROOT) if it not in ("out", ".git")]
        for name in names:
            source, to = os.path.join(ROOT, name), os.path.join(self.top, name)
            if os.path.isdir(source):
                shutil.copytree(
                    source, to, ignore=shutil.ignore_patterns("out", "proofs", "__pycache__")
                )
            else:
                os.makedirs(self.top, exist_ok=True)
                shutil.copy2(source, to)
        # What it is a copy of may be one that can only be read.
        subprocess.run(["chmod", "-R", "u+w", self.top], check=True)
        for name, text in ("rt", STAND_IN + KEEPS * keeps), ("rattle", STAND_IN_BESIDE):
            with open(os.path.join(commands, name), "w", encoding="utf-8") as it:
                it.write(text)
            os.chmod(it.name, 0o755)
        self.environment = {
            **os.environ,
            "PATH": commands + ":" + os.environ["PATH"],
            "CALLED": self.calls,
            "YMODEM": PROGRAM,
        }
        self.words = ["make", "--no-print-directory"]
        self.how = {}

    def make(self, *words):
        return self.run(*self.words, *words)

    def run(self, *words):
        """A command in the tree: its status, and what it wrote."""
        ran = subprocess.run(
            words,
            cwd=self.top,
            env=self.environment,
            capture_output=True,
            text=True,
            check=False,
            **self.how
        )
        return ran.returncode, ran.stdout, ran.stderr

    def write(self, name, text):
        """A script of the tree, in place of the one that is there."""
        with open(os.path.join(self.top, name), "w", encoding="utf-8") as it:
            it.write(text)
        os.chmod(it.name, 0o755)

    def edit(self, crate):
        """Adds a comment to a crate's source."""
        with open(
            os.path.join(self.top, "crates", crate, "src", "lib.rt"), "a", encoding="utf-8"
        ) as edited:
            edited.write("// edited\n")

    def mark(self, name, text=""):
        with open(os.path.join(self.calls, name), "w", encoding="utf-8") as it:
            it.write(text)

    def wants_ended(self):
        """The stand-in that waited for its end has to be gone."""
        with open(os.path.join(self.calls, "process"), encoding="utf-8") as told:
            process = "/proc/" + told.read().strip()
        wait_until(lambda: not os.path.exists(process), "rt had ended")

    def unmark(self, name):
        os.remove(os.path.join(self.calls, name))

    def called(self):
        """The calls of rt since the last time."""
        file = os.path.join(self.calls, "called")
        if not os.path.exists(file):
            return []
        with open(file, encoding="utf-8") as it:
            found = it.read().splitlines()
        os.remove(file)
        return found


@contextlib.contextmanager
def tree(keeps=False):
    needs("make")
    with tempfile.TemporaryDirectory(prefix="ymodem-") as top:
        yield Tree(top, keeps)


def session():
    with open(os.path.join(ROOT, "crates", "ymodem", "stdout"), encoding="utf-8") as it:
        return it.read()
