"""What a test is called: a sentence, which stands as its id. A test of many cases has a sentence
for each of them."""

import inspect

import pytest


def sentence(words):
    """The sentence of a test that takes nothing."""
    return pytest.mark.parametrize("", [pytest.param(id=words)])


class Case:
    """One of the cases of a test: its sentence, and what the test takes there."""

    def __init__(self, words, values, named, marks):
        self.words, self.values, self.named, self.marks = words, values, named, marks

    def bound(self, signature, first=()):
        """What the test takes, by name: what is not given is its default, or a fixture."""
        found = signature.bind_partial(*first, *self.values, **self.named)
        found.apply_defaults()
        return found.arguments

    def param(self, given, room=""):
        return pytest.param(*given.values(), id=room + self.words, marks=self.marks)


def case(words, *values, marks=(), **named):
    """A case, with the arguments of the test."""
    return Case(words, values, named, marks)


def bare(test):
    """The signature of a test, which keeps no defaults: each case gives all that the test takes."""
    signature = inspect.signature(test)
    test.__defaults__ = test.__kwdefaults__ = None
    return signature


def cases(*some):
    """A test of these cases. What a case does not give is what the test has as its default, or a
    fixture."""

    def parametrized(test):
        signature = bare(test)
        given = [it.bound(signature) for it in some]
        params = [it.param(one) for it, one in zip(some, given)]
        return pytest.mark.parametrize(list(given[0]), params)(test)

    return parametrized


def cases_in(rooms, *some):
    """The same in each of these rooms, which is what the test takes first. The name of the room
    stands before the sentence."""

    def parametrized(test):
        signature = bare(test)
        each = [(it, room, it.bound(signature, (room,))) for room in rooms for it in some]
        params = [it.param(given, room.name + ": ") for it, room, given in each]
        return pytest.mark.parametrize(list(each[0][2]), params)(test)

    return parametrized


# A test that needs lrzsz.
NEEDS_LRZSZ = pytest.mark.needs("sb", "rb")
