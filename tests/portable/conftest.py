"""What the files for every processor are tried with. Where the programs of which they are made are
not installed, nothing is tried here."""

import os

import pytest
from support.library import LIBRARY
from support.portable import SOURCE, needs_portable


@pytest.fixture(autouse=True, scope="session")
def there_are_files():
    assert os.access(LIBRARY, os.R_OK), "there is no %s" % LIBRARY
    needs_portable()
    assert os.path.isfile(SOURCE), "there is no %s: make portable" % SOURCE
