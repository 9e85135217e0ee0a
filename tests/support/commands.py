"""Commands that have to go well."""

import subprocess

from support.program import LIMIT


def command(*words, **how):
    """What a command writes, which has to end with status 0."""
    done = subprocess.run(
        words, stdout=subprocess.PIPE, stderr=subprocess.STDOUT, timeout=LIMIT, check=False, **how
    )
    said = done.stdout.decode(errors="replace")
    told = "%s: status %d: %s" % (" ".join(words[:3]), done.returncode, said[-900:])
    assert done.returncode == 0, told
    return said
