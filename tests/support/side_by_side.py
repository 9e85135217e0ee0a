"""Makes the tests of a folder side by side, in threads, and has pytest tell them in their order.

Most tests wait for lines and peers: hundreds of them go on at once in one process, where a process
for each would cost more than the tests do. A test that takes nothing but its parameters begins
when the folder begins. One that takes a fixture is made by pytest, in its turn, and one that is
marked `alone` is made before the others begin. Those marked `slow` begin first.

A test that failed while this machine did not keep time shows nothing. It is made again once the
machine keeps time, and again where that did not last. A report that is false is excused by nothing.
"""

import os
import time
from concurrent.futures import ThreadPoolExecutor

import _pytest.runner
import pytest
from support.pulse import Certain, beating
from support.storing import steadily
from support.skipping import Skipped, needs

# How many tests of a folder go on at once, where it is not one.
AT_ONCE = {
    "boards": 4,
    "disk": 60,
    "explain": 60,
    "house": 8,
    "judge": 32,
    "library": 60,
    "line": 500,
    "package": 8,
    "peers": 500,
    "portable": 4,
    "serial": 24,
    "sessions": 150,
    "uboot": 14,
    "web": 4,
    "words": 8,
}


# pytest says in a variable of the environment which test it tells. Other tests copy the environment
# meanwhile, and would see that come and go.
_pytest.runner._update_current_test_var = lambda item, when: None


class Made:
    """What became of a test: what it raised, if it did, its seconds, and whether it was made
    again."""

    def __init__(self, fault, seconds, is_again):
        self.fault, self.seconds, self.is_again = fault, seconds, is_again


def fault_of(test, arguments):
    """What a test raises, or nothing."""
    try:
        test(**arguments)
    except Exception as fault:  # it is told where its turn comes
        return fault
    return None


def made(item, arguments):
    """Makes a test, again where it failed and this machine did not keep time."""
    test = steadily(item.obj) if item.get_closest_marker("steadily") else item.obj
    wanted = [name for it in item.iter_markers("needs") for name in it.args]
    first, tries = time.monotonic(), 0
    while True:
        began, tries = time.monotonic(), tries + 1
        fault = fault_of(lambda: needs(*wanted), {}) or fault_of(test, arguments)
        is_settled = fault is None or isinstance(fault, (Skipped, Certain))
        if is_settled or not beating().shows_nothing(began, first):
            return Made(fault, time.monotonic() - began, tries > 1)
        beating().wait_for_calm()


def folder_of(item):
    return os.path.basename(os.path.dirname(item.path))


def sentence_of(item):
    return item.name.partition("[")[2]


def is_marked(item, name):
    return item.get_closest_marker(name) is not None


def parameters(item):
    """What a test takes, where that is nothing but its parameters."""
    found = item.callspec.params if hasattr(item, "callspec") else {}
    names = item._fixtureinfo.argnames
    return {it: found[it] for it in names} if set(names) <= set(found) else None


class SideBySide:
    """The plugin: what was begun of each folder, by test."""

    def __init__(self):
        self.begun, self.pools, self.again = {}, {}, 0
        # It beats from now on: it knows nothing of what was before its first use.
        beating()

    def begin(self, folder, items):
        """Begins the tests of a folder."""
        self.pools[folder] = pool = ThreadPoolExecutor(AT_ONCE.get(folder, 1))
        for it in items:
            given = parameters(it)
            if given is not None and not is_marked(it, "alone"):
                self.begun[it] = pool.submit(made, it, given)

    def pytest_collection_modifyitems(self, config, items):
        """Those that are chosen, the folders in turn. In each those that are alone come first, and
        then the slow ones."""
        words = config.getoption("check")
        left = [it for it in items if words and not any(word in sentence_of(it) for word in words)]
        config.hook.pytest_deselected(items=left)
        kept = [it for it in items if it not in set(left)]
        kept.sort(key=lambda it: (not is_marked(it, "alone"), not is_marked(it, "slow")))
        items[:] = sorted(kept, key=folder_of)

    @pytest.hookimpl(tryfirst=True)
    def pytest_runtest_call(self, item):
        """The folder of a test begins when its first one comes that is not alone."""
        folder = folder_of(item)
        if folder not in self.pools and not is_marked(item, "alone"):
            self.begin(folder, [it for it in item.session.items if folder_of(it) == folder])

    @pytest.hookimpl(tryfirst=True)
    def pytest_pyfunc_call(self, pyfuncitem):
        """Waits for a test that was begun, and makes one that was not."""
        if pyfuncitem in self.begun:
            came = self.begun.pop(pyfuncitem).result()
        else:
            names = pyfuncitem._fixtureinfo.argnames
            came = made(pyfuncitem, {it: pyfuncitem.funcargs[it] for it in names})
        pyfuncitem.seconds = came.seconds
        self.again += came.is_again
        if came.fault is not None:
            raise came.fault
        return True

    @pytest.hookimpl(hookwrapper=True)
    def pytest_runtest_makereport(self, item, call):
        """What is told is how long a test took, and not how long it was waited for."""
        told = (yield).get_result()
        if call.when == "call":
            told.duration = getattr(item, "seconds", told.duration)

    def pytest_terminal_summary(self, terminalreporter):
        if self.again:
            told = (
                "made again: %d tests, since this machine was up to %.1f s late with what was due"
            )
            terminalreporter.write_line(told % (self.again, beating().worst))

    def pytest_sessionfinish(self):
        for pool in self.pools.values():
            pool.shutdown(wait=False, cancel_futures=True)
