"""Without the library nothing is tried here."""

import os

import pytest
from support.library import LIBRARY


@pytest.fixture(autouse=True, scope="session")
def there_is_a_library():
    assert os.access(LIBRARY, os.R_OK), "there is no %s" % LIBRARY
