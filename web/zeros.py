"""Zeros that are stored one behind the other become one `memory.fill`, where that is shorter.

The stores of a run stand right behind one another, begin at the same local, and leave no gap. So a
fill writes the same bytes, wherever all of them lie in memory.
"""

from wat import is_list, parsed, written

# How many bytes a store writes.
WIDTHS = {"i64.store": 8, "i32.store": 4, "i32.store16": 2, "i32.store8": 1}
WIDTHS.update({"i64.store32": 4, "i64.store16": 2, "i64.store8": 1})
# What is done in order.
ORDERED = ("func", "block", "loop")
# The bytes of a store of zero, at least; and those of a fill beside its numbers.
STORE, FILL = 7, 8
# So many stores take longer than a fill does.
SLOW = 3


class Zeros:
    """A store of zeros: from which local on, at which offset, and how many."""

    def __init__(self, it):
        offsets = [int(part[7:]) for part in it[1:] if str(part).startswith("offset=")]
        self.text, self.base = it, it[-2]
        self.start = offsets[0] if offsets else 0
        self.end = self.start + WIDTHS[it[0]]


def is_of_zeros(it):
    if not is_list(it) or it[0] not in WIDTHS:
        return False
    base, value = it[-2:]
    return base[0] == "local.get" and value[0][3:] == ".const" and int(value[1], 0) == 0


def length(number):
    """The bytes of a number in the code."""
    return (number.bit_length() + 7) // 7


def filled(run):
    """What writes these zeros, which leave no gap: a fill, or the stores as they are."""
    start, end = run[0].start, run[-1].end
    moved = start and 2 + length(start)
    if len(run) < SLOW or STORE * len(run) <= FILL + moved + length(end - start):
        return [it.text for it in run]
    to = ["i32.add", run[0].base, ["i32.const", str(start)]] if start else run[0].base
    return [["memory.fill", to, ["i32.const", "0"], ["i32.const", str(end - start)]]]


def without_gaps(run):
    """Some stores, as those of which each begins where the one before it ends."""
    parts = []
    for it in sorted(run, key=lambda it: it.start):
        if parts and parts[-1][-1].end == it.start:
            parts[-1].append(it)
        else:
            parts.append([it])
    return parts


def runs(steps):
    """These steps, those of zeros from one local on together."""
    found = []
    for it in steps:
        zeros = Zeros(it) if is_of_zeros(it) else None
        if zeros and found and is_zeros(found[-1]) and found[-1][0].base == zeros.base:
            found[-1].append(zeros)
        else:
            found.append([zeros] if zeros else it)
    return found


def is_zeros(it):
    return is_list(it) and bool(it) and isinstance(it[0], Zeros)


def with_fills(it):
    """The same with fills."""
    if not is_list(it):
        return it
    parts = [with_fills(part) for part in it]
    if not parts or parts[0] not in ORDERED:
        return parts
    made = []
    for it in runs(parts):
        made += [one for part in without_gaps(it) for one in filled(part)] if is_zeros(it) else [it]
    return made


def zeros_filled(text):
    """The text of a module, as wasm-opt writes it and reads it again."""
    return written(with_fills(parsed(text)))
