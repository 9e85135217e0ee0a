"""Without the library for 64-bit ARM nothing is tried here."""

import os

import pytest
from support.example_boards import ARCHIVE


@pytest.fixture(autouse=True, scope="session")
def there_is_a_library():
    assert os.access(ARCHIVE, os.R_OK), "there is no %s" % ARCHIVE
