"""What all tests have, and how they are made: side by side (support/side_by_side.py)."""

import os
import sys

import pytest

sys.dont_write_bytecode = True

from support.program import PROGRAM
from support.side_by_side import SideBySide, folder_of

# The folders whose tests try other things than the program, but for those that are marked so.
WITHOUT_PROGRAM = ("house", "memory", "portable", "web")


def pytest_addoption(parser):
    words = "only the tests whose sentences have these words; given again, or those of the others"
    parser.addoption("--check", action="append", default=[], metavar="WORDS", help=words)
    rates = "the page has to be as fast as is wanted of it, which an idle machine alone can show"
    parser.addoption("--rates", action="store_true", help=rates)


def pytest_configure(config):
    config.pluginmanager.register(SideBySide(), "side-by-side")


@pytest.fixture(scope="session")
def program():
    """The program that is tried: what YMODEM names, else what a build leaves."""
    assert os.access(PROGRAM, os.X_OK), "there is no %s" % PROGRAM
    return PROGRAM


@pytest.fixture(autouse=True)
def there_is_a_program(request):
    """Without the program its tests fail."""
    is_of_program = request.node.get_closest_marker("program")
    if is_of_program or folder_of(request.node) not in WITHOUT_PROGRAM:
        request.getfixturevalue("program")
