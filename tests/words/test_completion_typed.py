"""What the completion offers for lines that are typed into bash and zsh: each splits a line in its
own way, and quotes the names that it types."""

import os

from support.cases import case, cases
from support.program import folders, wants_same, write_files
from support.skipping import needs
from support.typed_line import completed

FILES = ("first.bin", "my file", "x*y")
FOLDER = "in coming"
# What is typed, and what stands behind it once all that fits is there.
BOTH = (
    ("ymodem-tty --device fir", "st.bin"),
    ("ymodem-tty --device=fir", "st.bin"),
    ("ymodem-tty --device /dev/nul", "l"),
    ("ymodem-tty --device=/dev/nul", "l"),
    ("ymodem-tty --flow ", "hard none soft"),
    ("ymodem-tty --flow=h", "ard"),
    ("ymodem-tty --speed ", ""),
    ("ymodem-tty --device /dev/pts/0 se", "nd"),
    ("ymodem-tty --device /dev/pts/0 send fir", "st.bin"),
    ("ymodem-tty --device=/dev/pts/0 send fir", "st.bin"),
    ("ymodem-tty --device=/dev/pts/0 send --sh", "ort"),
    ("ymodem-tty --device=/dev/a:b --speed=9600 re", "ceive"),
    ("ymodem-tty --device=/dev/a:b --speed=9600 receive --si", "ngle"),
    ("ymodem-tty --flow hard send ", "first.bin in\\ coming my\\ file x\\*y"),
    ("ymodem-tty send --record my", "\\ file"),
    ("ymodem-tty receive --record=my", "\\ file"),
    ("ymodem sb --record my", "\\ file"),
    ("ymodem sb --line=fir", "st.bin"),
    ("ymodem rb --line=/dev/nul", "l"),
    ("ymodem receive --record=my", "\\ file"),
    ("ymodem explain --there=my", "\\ file"),
    ("ymodem judge receiver --line=fir", "st.bin"),
    ("ymodem send --port=4000 fir", "st.bin"),
    ("ymodem sb my\\ fi", "le"),
    ("ymodem explain --there my", "\\ file"),
    ("ymodem explain --back x", "\\*y"),
    ("ymodem re", "ceive"),
    ("ymodem-judge receiver --j", "obs --json"),
    ("ymodem-judge --jobs=s", ""),
    ("ymodem-judge --jobs=4 rec", "eiver"),
)
BASH = (
    ("ymodem-tty --device ", "first.bin in\\ coming my\\ file x\\*y"),
    ("ymodem-tty --device=", "first.bin in\\ coming my\\ file x\\*y"),
    ("ymodem-tty --flow=", "hard none soft"),
    ("ymodem-tty --speed 9600 --dev", "ice"),
    ("ymodem-tty receive in", "\\ coming"),
    ("ymodem rb --li", "ne"),
    ("ymodem judge receiver --stored in", "\\ coming"),
    ("ymodem judge receiver --stored=in", "\\ coming"),
)
# This one types an option with its =, and a folder with its slash.
ZSH = (
    ("ymodem-tty --flow=", "hard --flow=none --flow=soft"),
    ("ymodem-tty --speed 9600 --dev", "ice="),
    ("ymodem-tty receive in", "\\ coming/"),
    ("ymodem rb --li", "ne="),
    ("ymodem judge receiver --stored in", "\\ coming/"),
    ("ymodem judge receiver --stored=in", "\\ coming/"),
)


@cases(
    *(
        case("%s completes '%s'" % (shell, typed), shell, typed, wanted)
        for shell, lines in (("bash", BOTH + BASH), ("zsh", BOTH + ZSH))
        for typed, wanted in lines
    )
)
def test_completes(shell, typed, wanted):
    """All that fits is typed at the end of the line, and no more."""
    needs(shell)
    with folders() as (here, _):
        write_files(here, [(name, b"") for name in FILES])
        os.mkdir(os.path.join(here, FOLDER))
        found = completed(shell, here, typed)
    wants_same({"line": found}, {"line": (typed + wanted).rstrip()})
