"""Numbers of 32 bits where one of 64 has no more, or nobody reads more.

wasm-opt cuts each address to 32 bits right before it is used (`--memory64-lowering`), and computes
it in 64. Here the cut moves inward, to where a number is made:
- A name of which the low half alone is read has 32 bits: the low half of a sum is the sum of the
  low halves.
- So has a name that holds numbers below 2^32 alone (`small.py`). Where it is read whole its upper
  half is zeros, and where two such numbers are compared, their low halves are.
- A pointer or a length of a call is such a number: memory has 2^32 bytes at most. So the calls take
  and answer them in 32 bits.

Each step is exact, for all numbers that the calls can be given, where each access lies in memory:
where the low half of a load alone is read, four bytes are loaded in place of eight.
"""

from small import RESULT, STACK, Small, is_plain_select, is_valued
from wat import Function, all_of, is_list, parsed, written

# Whose low half is that of the low halves.
HALVED = {"i64." + it for it in ("add", "sub", "mul", "and", "or", "xor")}
# What is small where its operands are, and made of their low halves.
MADE = {"i64." + it for it in ("and", "or", "xor", "shr_u", "div_u", "rem_u")}
COMPARED = {"i64.eq": "i32.eq", "i64.ne": "i32.ne"}
for it in ("lt", "le", "gt", "ge"):
    # a number below 2^32 has no sign
    COMPARED.update({"i64.%s_%s" % (it, sign): "i32.%s_u" % it for sign in "us"})
EXTENDED = ("i64.extend_i32_u", "i64.extend_i32_s")
LOADED = {"i64.load" + it: "i32.load" + it for it in ("8_u", "8_s", "16_u", "16_s")}
LOADED.update({it: "i32.load" for it in ("i64.load32_u", "i64.load32_s", "i64.load")})
NAMED = ("local.get", "local.set", "local.tee")
STORED = {"i64.store8": "i32.store8", "i64.store16": "i32.store16", "i64.store32": "i32.store"}


def own_names(function):
    """Has each parameter that the function changes stand in a local of its own."""
    changed = {it[1] for it in function.assigned()} & set(function.params)
    for name in sorted(changed):
        own = name + ".own"
        for it in function.all():
            if it[0] in NAMED and it[1] == name:
                it[1] = own
        function.heads.append(["local", own, function.types[name]])
        function.types[own] = function.types[name]
        function.body.insert(0, ["local.set", own, ["local.get", name]])


def signed(number):
    """The low half of a number, as a number with a sign."""
    low = number & 0xFFFFFFFF
    return low - (low >> 31 << 32)


def is_short_shift(it):
    """Whether this is shifted within 32 bits."""
    return it[2][0] == "i64.const" and 0 <= int(it[2][1], 0) < 32


def extended(it):
    return ["i64.extend_i32_u", it]


class Pass:
    """A function written anew, where some names have 32 bits. Notes the others of these that were
    read whole, and are not small."""

    def __init__(self, module, short, where):
        self.module, self.short, self.where, self.read = module, short, where, set()

    def is_small(self, it):
        return self.module.small.holds(self.where, it)

    def named(self, it):
        """The name that this reads or assigns, if it has one."""
        kind = it[0]
        if kind in ("local.get", "local.tee", "local.set"):
            return (self.where, it[1])
        if kind in ("global.get", "global.set"):
            return ("", it[1])
        if kind == "call":
            return (it[1], RESULT)
        return (self.where, RESULT) if kind == "return" else None

    def given(self, it):
        """The same with its operands, each as what it is given to has it."""
        kind = it[0]
        if kind == "call":
            names = [(it[1], name) for name in self.module.params(it[1])]
            return [*it[:2], *[self.put(part, name) for part, name in zip(it[2:], names)]]
        if kind in ("local.tee", "local.set", "global.set"):
            return [*it[:2], self.put(it[2], self.named(it))]
        if kind == "return" and len(it) > 1:
            return [kind, self.put(it[1], self.named(it))]
        return it

    def put(self, it, name):
        return self.low(it) if name in self.short else self.whole(it)

    # ---- The low half

    def low(self, it):
        """The low half of a number of 64 bits."""
        kind = it[0]
        if kind == "i64.const":
            return ["i32.const", str(signed(int(it[1], 0)))]
        if kind in EXTENDED:
            return self.whole(it[1])
        if kind in LOADED:
            rest = ["align=4" if part == "align=8" else part for part in it[1:]]
            return [LOADED[kind], *map(self.whole, rest)]
        if self.named(it) in self.short:
            return self.given(it)
        if kind == "i64.sub" and it[2][0] == "i64.const":
            # a sum, whose number can become a part of an access
            return ["i32.add", self.low(it[1]), ["i32.const", str(signed(-int(it[2][1], 0)))]]
        if kind in HALVED or (kind in MADE and self.is_made(it)):
            return ["i32" + kind[3:], self.low(it[1]), self.low(it[2])]
        if kind == "i64.shl" and is_short_shift(it):
            return ["i32.shl", self.low(it[1]), self.low(it[2])]
        return self.low_of_parts(it)

    def low_of_parts(self, it):
        """The low half of what has one of its parts as its value."""
        if is_plain_select(it):
            return ["select", self.low(it[1]), self.low(it[2]), self.whole(it[3])]
        if is_valued(it):
            arms = [self.low(it[3]), self.low(it[4])]
            return ["if", ["result", "i32"], self.whole(it[2]), *arms]
        return ["i32.wrap_i64", self.whole(it)]

    def is_made(self, it):
        """Whether this can be made of the low halves of its operands, which are small."""
        if it[0] == "i64.shr_u" and not is_short_shift(it):
            return False
        return self.is_small(it[1]) and self.is_small(it[2])

    # ---- The whole

    def whole(self, it):
        """The same, of names that may have 32 bits now."""
        if not is_list(it):
            return it
        kind, name = it[0], self.named(it)
        if kind == "i32.wrap_i64":
            return self.low(it[1])
        if kind in ("local.get", "local.tee", "global.get", "call") and name in self.short:
            if not self.is_small(it):
                self.read.add(name)
            return extended(self.given(it))
        if name:
            return self.given(it)
        if kind == "drop" and self.named(it[1]) in self.short:
            return [kind, self.given(it[1])]
        if kind in STORED:
            return [STORED[kind], *map(self.whole, it[1:-1]), self.low(it[-1])]
        if kind in COMPARED and self.is_small(it[1]) and self.is_small(it[2]):
            return [COMPARED[kind], self.low(it[1]), self.low(it[2])]
        if kind == "i64.eqz" and self.is_small(it[1]):
            return ["i32.eqz", self.low(it[1])]
        if self.is_shorter(it):
            return extended(self.low(it))
        return [self.whole(part) for part in it]

    def is_shorter(self, it):
        """Whether this is small, and made of names of 32 bits."""
        is_moved = it[0] in ("i64.add", "i64.sub") and self.is_small(it)
        if not is_moved and not (it[0] in MADE and self.is_made(it)):
            return False
        return any(self.named(part) in self.short for part in all_of(it) if part)


class Module:
    """A module, and which of its names have 32 bits."""

    def __init__(self, text, calls):
        """`calls`: of each export which of its parameters are pointers or lengths, and whether it
        answers one."""
        self.text = parsed(text)
        self.parts = [it for it in self.text if is_list(it)]
        functions = [Function(it) for it in self.parts if it[0] == "func"]
        self.functions = {it.name: it for it in functions}
        exports = [it[1:] for it in self.parts if it[0] == "export" and it[2][0] == "func"]
        self.exported = {it[1]: calls[name.strip('"')] for name, it in exports}
        for name in self.exported:
            own_names(self.functions[name])
        self.small = Small(self.functions, self.inner() | self.given(), self.outside())

    def params(self, name):
        return self.functions[name].params

    def inner(self):
        """The names of 64 bits that calls from outside do not see."""
        found = {STACK}
        for it in self.functions.values():
            seen = it.params if it.name in self.exported else []
            found |= {(it.name, name) for name, kind in it.types.items() if kind == "i64"}
            found -= {(it.name, name) for name in seen}
            if it.result == "i64" and it.name not in self.exported:
                found.add((it.name, RESULT))
        return found

    def outside(self):
        return {(it, name) for it in self.exported for name in self.params(it)}

    def given(self):
        """The pointers and lengths that calls are given."""
        return {
            (name, self.params(name)[at])
            for name, (short, _) in self.exported.items()
            for at in short
        }

    def answered(self):
        """The same that they answer."""
        return {(name, RESULT) for name, (_, is_short) in self.exported.items() if is_short}

    def narrowed(self):
        """The module's text with 32 bits for what needs no more."""
        short = self.inner() | self.given() | self.answered()
        while True:
            read, made = set(), {}
            for it in self.functions.values():
                one = Pass(self, short, it.name)
                made[it.name] = self.function(it, one)
                read |= one.read
            if not read:
                return self.whole(made, short)
            short -= read

    def function(self, it, one):
        """The text of a function, of what a pass makes of its body."""
        body = [one.whole(part) for part in it.body[:-1]]
        body += [one.put(part, (it.name, RESULT)) for part in it.body[-1:]]
        heads = [self.head(it.name, head, one.short) for head in it.heads]
        return ["func", it.name, *heads, *body]

    def head(self, where, it, short):
        if it[0] in ("param", "local") and (where, it[1]) in short:
            return [*it[:2], "i32"]
        return ["result", "i32"] if it[0] == "result" and (where, RESULT) in short else it

    def whole(self, made, short):
        """The text of the module with these functions."""
        parts = [it for it in self.text if not is_list(it) or it[0] != "type"]
        for at, it in enumerate(parts):
            if is_list(it) and it[0] == "func":
                parts[at] = made[it[1]]
            elif is_list(it) and it[0] == "global" and ("", it[1]) in short:
                parts[at] = [*it[:2], ["mut", "i32"], ["i32.const", str(signed(int(it[3][1], 0)))]]
        return written(parts)


def narrowed(text, calls):
    """The text of a module, as wasm-opt writes it and reads it again."""
    return Module(text, calls).narrowed()
