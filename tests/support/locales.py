"""Another locale, for what must not depend on it."""

import os
import tempfile
import threading

from support.commands import command
from support.skipping import Skipped, needs


MADE = tempfile.TemporaryDirectory(prefix="ymodem-locales-")
ONE_BY_ONE = threading.Lock()


def turkish():
    """The variables of a Turkish locale, where I is not the capital of i. It is made here, since
    few systems have it."""
    needs("localedef")
    if not os.path.exists("/usr/share/i18n/locales/tr_TR"):
        raise Skipped("a Turkish locale: the package locales is not installed")
    with ONE_BY_ONE:
        if not os.listdir(MADE.name):
            command(
                "localedef", "-i", "tr_TR", "-f", "UTF-8", os.path.join(MADE.name, "tr_TR.UTF-8")
            )
            os.chmod(MADE.name, 0o755)
    return {"LOCPATH": MADE.name, "LC_ALL": "tr_TR.UTF-8"}


def turkish_if_it_can_be_had():
    try:
        return turkish()
    except Skipped:
        return {}
