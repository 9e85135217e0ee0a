"""Which names of a module hold numbers below 2^32 alone, though they have room for 64 bits.

A name is a local, a parameter, what a function answers, or a global. What is known of it holds at
each of its assignments, of all calls too. Two things make a number small: how it is made, and that
it is an address on the stack. The second is so where the stack's end never comes below `FAR`.
"""

import itertools

from wat import is_list

STACK = ("", "$__stack_pointer")
RESULT = "result"
# What is a constant away from the stack's end is at most so far away.
FAR = 1 << 14
# What is still moved after so many rounds is moved in a loop, and so may come anywhere.
ROUNDS = 20

LOADS = ("i64.load8_u", "i64.load16_u", "i64.load32_u")
# Small where each operand is; and where the first one is.
OF_ALL = {"i64." + it for it in ("or", "xor")}
OF_FIRST = {"i64." + it for it in ("shr_u", "div_u", "rem_u")}
# What has no value, since what follows is not reached.
ENDS = ("unreachable", "return", "br")


def is_plain_select(it):
    """A select whose operands come right behind it, and no type."""
    return it[0] == "select" and it[1][0] != "result"


def is_valued(it):
    """An `if` with a value; its arms stand behind its condition."""
    return it[0] == "if" and is_list(it[1]) and it[1][0] == "result"


def flows(functions):
    """Each name that is assigned, with what it is assigned and the function where."""
    for function in functions.values():
        where = function.name
        for it in function.all():
            if it[0] in ("local.set", "local.tee"):
                yield (where, it[1]), it[2], where
            elif it[0] == "call" and it[1] in functions:
                for name, given in zip(functions[it[1]].params, it[2:]):
                    yield (it[1], name), given, where
        for it in function.answers():
            yield (where, RESULT), it, where


class Small:
    """The names whose numbers are small, of those with 64 bits."""

    def __init__(self, functions, names, outside):
        """`names`: all with 64 bits, but those that come from outside and may be any number;
        `outside`: what comes from outside."""
        self.flows = list(flows(functions))
        self.away = self.distances(outside)
        self.names = set(names)
        self.known = {}
        while True:
            some = [it for it in self.flows if it[0] in self.names]
            wrong = {name for name, it, where in some if not self.holds(where, it)}
            self.known = {}
            if not wrong:
                break
            self.names -= wrong

    def distances(self, outside):
        """How far from the stack's end each name is at least and at most, where that is known."""
        found = {STACK: (0, 0), **{it: () for it in outside}}
        for rounds in itertools.count():
            before = dict(found)
            for name, it, where in self.flows:
                found[name] = joined(found.get(name), distance(found, where, it))
            moved = [name for name, it in found.items() if it != before.get(name)]
            if not moved:
                return {name: it for name, it in found.items() if it}
            if rounds > ROUNDS:
                found.update({name: () for name in moved})

    def holds(self, where, it):
        """Whether this is small."""
        if id(it) not in self.known:
            self.known[id(it)] = self.found(where, it)
        return self.known[id(it)]

    def found(self, where, it):
        kind = it[0]
        if kind == "i64.const":
            return 0 <= int(it[1], 0) < 1 << 32
        if kind in LOADS or kind == "i64.extend_i32_u" or kind in ENDS:
            return True
        if kind in ("local.get", "local.tee"):
            return (where, it[1]) in self.names
        if kind == "global.get":
            return ("", it[1]) in self.away
        if kind == "call":
            return (it[1], RESULT) in self.names
        if kind == "i64.and":
            return self.holds(where, it[1]) or self.holds(where, it[2])
        if kind in OF_FIRST:
            return self.holds(where, it[1])
        if kind in OF_ALL:
            return self.holds(where, it[1]) and self.holds(where, it[2])
        if is_plain_select(it):
            return self.holds(where, it[1]) and self.holds(where, it[2])
        if is_valued(it):
            return self.holds(where, it[3]) and self.holds(where, it[4])
        return bool(distance(self.away, where, it))


def distance(known, where, it):
    """How far this is from the stack's end: () where it is not, None where nothing is known yet."""
    if it[0] == "global.get":
        return known.get(("", it[1]), ())
    if it[0] == "local.get":
        return known.get((where, it[1]))
    if it[0] == "local.tee":
        return distance(known, where, it[2])
    if it[0] in ("i64.add", "i64.sub") and it[2][0] == "i64.const":
        its, by = distance(known, where, it[1]), int(it[2][1], 0)
        by = by if it[0] == "i64.add" else -by
        return joined(tuple(at + by for at in its)) if its else its
    return ()


def joined(one, *others):
    """The least and the most of these distances."""
    if () in (one, *others):
        return ()
    there = [it for it in (one, *others) if it is not None]
    if not there:
        return None
    least, most = min(it[0] for it in there), max(it[1] for it in there)
    return (least, most) if max(-least, most) <= FAR else ()
