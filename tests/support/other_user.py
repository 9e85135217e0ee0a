"""A user who is not root, to whom what root may open is closed."""

import os
import subprocess

from support.program import PROGRAM
from support.skipping import Skipped, needs


# A user who owns nothing.
NOBODY = 65534


def not_by_root():
    """The words by which somebody else runs a program, since root may write everywhere."""
    if os.geteuid():
        return ()
    needs("setpriv")
    words = ("setpriv", "--reuid=%d" % NOBODY, "--regid=%d" % NOBODY, "--clear-groups")
    if subprocess.run([*words, "test", "-x", PROGRAM], check=False).returncode:
        raise Skipped("the program is where only root can reach it")
    return words


def handed_over(folder, *paths):
    """The same, of somebody to whom this folder belongs from now on, and these files."""
    words = not_by_root()
    if words:
        os.chmod(os.path.dirname(folder), 0o755)
        for path in (folder, *paths):
            os.chown(path, NOBODY, NOBODY)
    return words
