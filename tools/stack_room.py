"""What a module of the toolchain asks of itself when it runs, answered once for all calls.

The back end makes each function ask whether the stack has room below its frame, and the linker each
export whether a call is under way. Here the frames are counted, of each export and of all that it
calls, and both questions are taken out:
- A module has the room if its stack is as large as `needs` says. Who calls `unasked` sees to that.
- An export stands in no call of the module's, and the module calls nothing but itself. So where a
  host makes one call at a time on an instance, no call stands within another.

What is looked at is the text of a module as it was linked, each local of it assigned once where
that can be (`wasm-opt --ssa-nomerge`). A module of another shape is refused.
"""

from wat import all_of, assigns, is_list, parsed, written

STACK = ["global.get", "$__stack_pointer"]
ENTER, LEAVE = ["call", "$__rattle_enter"], ["call", "$__rattle_leave"]
# The back end wants so many bytes of stack below each frame.
BELOW = 16
# What asks for them, and what it is answered: for `at_least`, `more_than` and their contraries.
ASKS = {"i64.ge_s": 1, "i64.gt_s": 1, "i64.lt_s": 0, "i64.le_s": 0}
# What no frame has.
LARGE = 1 << 16


class Refused(Exception):
    """The module is of another shape."""


def wants(holds, text):
    if not holds:
        raise Refused(text)


class Frame:
    """What a function takes off the stack: the stack's end is read once, and moved by the frame."""

    def __init__(self, text):
        self.text, self.name = text, text[1]
        self.parts = [it for it in all_of(text) if it]
        self.calls = {it[1] for it in self.parts if it[0] == "call"}
        reads = sum(it == STACK for it in self.parts)
        wants(reads <= 1, "%s: it reads the stack's end %d times" % (self.name, reads))
        moved = [it for it in self.parts if it[0] == "i64.sub" and it[1] == STACK]
        self.size = int(moved[0][2][1]) if moved else 0
        is_frame = 0 <= self.size < LARGE and self.size % 16 == 0
        wants(is_frame, "%s: a frame of %d bytes" % (self.name, self.size))
        self.bottom = moved[0] if moved else STACK
        self.copies = self.copied()
        sets = [it for it in self.parts if it[:2] == ["global.set", STACK[1]]]
        self.is_moved = any(self.is_bottom(it[2]) for it in sets) and bool(self.size)
        wants(all(map(self.is_move, sets)), "%s: how it moves the stack" % self.name)
        self.questions = [it for it in self.parts if it[0] in ASKS and self.is_bottom(it[1])]

    def copied(self):
        """Each local that is always the frame's bottom."""
        found = set()
        while True:
            self.copies = found
            assigned = [it for it in self.parts if assigns(it)]
            others = {it[1] for it in assigned if not self.is_bottom(it[2])}
            more = {it[1] for it in assigned} - others
            if more == found:
                return found
            found = more

    def is_bottom(self, it):
        """Whether this is the lowest address of the frame."""
        if it[0] == "local.tee":
            return self.is_bottom(it[2])
        return it == self.bottom or (it[0] == "local.get" and it[1] in self.copies)

    def is_move(self, it):
        """Whether the stack's end becomes the frame's bottom, or what it was before."""
        if self.is_bottom(it[2]):
            return True
        up = ["i64.const", str(self.size)]
        return it[2][0] == "i64.add" and self.is_bottom(it[2][1]) and it[2][2] == up

    def answer(self):
        """Takes out each question for room."""
        for it in self.questions:
            asked = int(it[2][1]) + (it[0] in ("i64.gt_s", "i64.le_s"))
            wants(asked == BELOW, "%s: room for %d more" % (self.name, asked))
            answer = ["i32.const", str(ASKS[it[0]])]
            it[:] = ["block", ["result", "i32"], ["drop", it[1]], answer]


def needed(frames, name, above=()):
    """The bytes of stack that a function and all that it calls need."""
    wants(name not in above, "%s calls itself" % name)
    wants(name in frames, "%s stands elsewhere" % name)
    it = frames[name]
    below = [needed(frames, called, (*above, name)) for called in it.calls]
    return it.size + max([BELOW * bool(it.questions), *below])


def enter(module, frames, exported):
    """Takes out each question whether a call is under way."""
    kinds = {it[0] for it in all_of(module) if it and it[0]}
    outside = kinds & {"import", "table", "elem", "start", "call_indirect"}
    wants(not outside, "it may be called from elsewhere: %s" % " ".join(map(str, outside)))
    called = {name for it in frames.values() for name in it.calls}
    wants(not called & exported, "a call within a call")
    for it in frames.values():
        wants(it.name in exported or ENTER[1] not in it.calls, "%s enters" % it.name)
        for part in it.parts:
            if part == ENTER:
                part[:] = ["i32.const", "0"]
            elif part == LEAVE:
                part[:] = ["nop"]


def unasked(text):
    """The text of the module without these questions, and what stack each export needs."""
    module = parsed(text)
    parts = [it for it in module if is_list(it)]
    frames = {it[1]: Frame(it) for it in parts if it[0] == "func"}
    exported = {it[2][1]: it[1] for it in parts if it[0] == "export" and it[2][0] == "func"}
    needs = {name.strip('"'): needed(frames, it) for it, name in exported.items()}
    enter(module, frames, set(exported))
    for it in frames.values():
        it.answer()
    return written(module), needs
