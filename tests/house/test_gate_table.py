"""The table of the gate's processor minutes, by a stand-in for `rt ci`."""

import os
import subprocess
import sys
import tempfile

from support.cases import sentence
from support.program import ROOT


# It starts what `rt ci` starts: a proof, the proof of tests, and an edit in a folder of its own.
STAND_IN = """
busy='import time
while time.process_time() < 2: pass'
"$1" -c "$busy" build --crate-name ym_frame &
"$1" -c "$busy" build --crate-name ym_frame --test &
wait
cd "$2"
"$1" -c "$busy" check --crate-name ym_frame
echo "12 passed, 1 failed"
exit 1
"""


@sentence("the table of the gate")
def test_table_of_the_gate():
    with tempfile.TemporaryDirectory(prefix="rt-edit-") as room:
        words = [
            os.path.join(ROOT, "bench", "gate.py"),
            "--to",
            os.path.join(room, "table"),
            "sh",
            "-c",
            STAND_IN,
            "sh",
            sys.executable,
            room,
        ]
        ran = subprocess.run(words, capture_output=True, text=True, check=False)
        assert (ran.returncode, ran.stdout) == (
            1,
            "12 passed, 1 failed\n",
        ), "it ended with %d, and passed on %r: %r" % (ran.returncode, ran.stdout, ran.stderr)
        with open(os.path.join(room, "table"), encoding="utf-8") as it:
            told = it.read()
        edits = sorted(
            it
            for it in os.listdir(os.path.join(ROOT, "crates", "ym_frame", "must-fail"))
            if it.endswith(".edit")
        )
        for wanted in ("ym_frame: proof", "ym_frame: tests", "ym_frame: edits", "ym_frame/" + edits[0]):
            assert wanted in told, "the table lacks %r: %s" % (wanted, told)
