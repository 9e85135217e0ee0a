"""The page and the browsers in which it is tried. Where the page is not made, since what makes it
is not installed, nothing is tried here."""

import os

import pytest
from support.empty_page import WEB
from support.rooms import BROWSERS, NOTES
from support.skipping import needs


@pytest.fixture(autouse=True, scope="session")
def rooms(request):
    """The browsers, which are closed at the end."""
    if not os.path.isdir(WEB):
        needs("wasm-opt")
    page = os.path.join(WEB, "index.html")
    assert os.access(page, os.R_OK), "there is no %s" % page
    for room in BROWSERS:
        room.are_rates_wanted = request.config.getoption("rates")
    yield BROWSERS
    for room in BROWSERS:
        room.close()


def pytest_terminal_summary(terminalreporter):
    for note in NOTES:
        terminalreporter.write_line(note)
