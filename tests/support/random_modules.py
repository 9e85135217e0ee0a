"""Functions of WebAssembly with random bodies, for tests of web/narrow.py. None of them traps."""

HALVED = ("add", "sub", "mul", "and", "or", "xor")
COMPARED = ("eq", "ne", "lt_u", "lt_s", "le_u", "le_s", "gt_u", "gt_s", "ge_u", "ge_s")
LOADS = ("load8_u", "load16_u", "load32_u", "load8_s", "load16_s", "load32_s", "load")
STORES = ("store8", "store16", "store32", "store")
NUMBERS = (
    0,
    1,
    8,
    255,
    1000,
    65535,
    2**31 - 1,
    2**31,
    2**32 - 1,
    2**32,
    2**32 + 1,
    -1,
    -(2**63),
)
# The parameters of a function: two below 2^32, and one that is any number. Of its locals the first
# ones are such too.
SHORT, PARAMETERS, SMALL, LOCALS = 2, 3, 3, 6
DEPTH, STEPS = 4, 8
# A function calls those behind it among so many, and the last of these none.
GROUP = 3
# Where all accesses stand.
FROM, ROOM = 70000, 1023


class Maker:
    """Makes functions."""

    def __init__(self, chance):
        self.chance, self.at = chance, 0
        self.numbers = (self.halved, self.shifted, self.divided, self.loaded, self.extended)
        self.numbers += (self.chosen, self.kept, self.called, self.small, self.stacked)

    def of(self, some):
        return self.chance.choice(some)

    def assigned(self, depth):
        """A name and what it is assigned: a small number where that is all that it holds."""
        at = self.chance.randrange(SHORT, PARAMETERS + LOCALS)
        is_small = PARAMETERS <= at < PARAMETERS + SMALL
        return "$%d %s" % (at, (self.few if is_small else self.number)(depth))

    # ---- Numbers of 64 bits

    def number(self, depth):
        if depth == 0 or self.chance.random() < 0.1:
            leaf = "(local.get $%d)" % self.chance.randrange(PARAMETERS + LOCALS)
            return self.of((leaf, self.few(0), "(i64.const %d)" % self.of(NUMBERS)))
        return self.of(self.numbers)(depth - 1)

    def few(self, depth):
        """A number below 2^32."""
        if depth == 0 or self.chance.random() < 0.3:
            places = [*range(SHORT), *range(PARAMETERS, PARAMETERS + SMALL)]
            return "(local.get $%d)" % self.of(places)
        kinds = ("(i64.or {0} {1})", "(i64.xor {0} {1})", "(i64.and {0} {2})")
        kinds += ("(i64.rem_u {0} {3})", "(i64.shr_u {0} {3})")
        kinds += ("(select {0} {1} (i64.eqz {2}))", "(i64.extend_i32_u {4})")
        parts = self.few(depth - 1), self.few(depth - 1), self.number(depth - 1)
        by = "(i64.const %d)" % self.of((1, 5, 31))
        return self.of(kinds).format(*parts, by, "(i32.wrap_i64 %s)" % self.number(depth - 1))

    def halved(self, depth):
        return "(i64.%s %s %s)" % (self.of(HALVED), self.number(depth), self.number(depth))

    def shifted(self, depth):
        kind, by = self.of(("shl", "shr_u", "shr_s")), self.of((0, 1, 5, 31, 32, 63, -1, -33))
        return "(i64.%s %s (i64.const %d))" % (kind, self.number(depth), by)

    def divided(self, depth):
        kind, by = self.of(("div_u", "rem_u")), self.of((1, 3, 8, 2**32 - 1, 2**32 + 5))
        return "(i64.%s %s (i64.const %d))" % (kind, self.number(depth), by)

    def loaded(self, depth):
        return "(i64.%s %s)" % (self.of(LOADS), self.address(depth))

    def extended(self, depth):
        return "(i64.extend_i32_%s %s)" % (self.of("us"), self.truth(depth))

    def chosen(self, depth):
        kind = self.of(("select {0} {1} {2}", "if (result i64) {2} {0} {1}"))
        parts = self.number(depth), self.number(depth), self.truth(depth)
        return "(%s)" % kind.format(*parts)

    def kept(self, depth):
        return "(local.tee %s)" % self.assigned(depth)

    def called(self, depth):
        """A call of a function behind this one, with any numbers."""
        behind = range(self.at + 1, self.at // GROUP * GROUP + GROUP)
        if not behind:
            return self.small(depth)
        given = " ".join(self.number(depth) for _ in range(PARAMETERS))
        return "(call $inner%d %s)" % (self.of(behind), given)

    def small(self, depth):
        most = self.of((1, 255, 65535, 2**32 - 1))
        return "(i64.and %s (i64.const %d))" % (self.number(depth), most)

    def stacked(self, _):
        return "(i64.sub (global.get $__stack_pointer) (i64.const %d))" % self.of((16, 48, 1024))

    # ---- Numbers of 32 bits

    def address(self, depth):
        within = "(i64.and %s (i64.const %d))" % (self.number(depth), ROOM)
        return "(i32.wrap_i64 (i64.add %s (i64.const %d)))" % (within, FROM)

    def truth(self, depth):
        way = self.chance.random()
        if way < 0.2:
            return "(i32.wrap_i64 %s)" % self.number(depth)
        if way < 0.3:
            return "(i64.eqz %s)" % self.number(depth)
        return "(i64.%s %s %s)" % (self.of(COMPARED), self.number(depth), self.number(depth))

    # ---- Steps

    def step(self, depth):
        kind = self.of(("set", "set", "set", "store", "if", "block", "return", "drop"))
        if depth == 0 or kind == "set":
            return "(local.set %s)" % self.assigned(depth)
        if kind == "store":
            where, what = self.address(depth - 1), self.number(depth)
            return "(i64.%s %s %s)" % (self.of(STORES), where, what)
        if kind == "return":
            return "(if %s (return %s))" % (self.truth(1), self.number(depth - 1))
        if kind == "drop":
            return "(drop %s)" % self.called(depth - 1)
        parts = self.truth(depth), self.step(depth - 1), self.step(depth - 1)
        if kind == "if":
            return "(if %s %s %s)" % parts
        return "(block $out (br_if $out %s) %s %s)" % parts

    def function(self, at):
        """A function that others call, and one for a host with the same body."""
        self.at = at
        names = ["(param $%d i64)" % it for it in range(PARAMETERS)] + ["(result i64)"]
        names += ["(local $%d i64)" % it for it in range(PARAMETERS, PARAMETERS + LOCALS)]
        steps = [self.step(DEPTH) for _ in range(self.chance.randrange(1, STEPS))]
        body = "\n".join([*names, *steps, self.number(DEPTH)])
        inner = "(func $inner%d %s)" % (at, body)
        return inner + '\n(func $outer%d (export "call%d") %s)' % (at, at, body)


def module(chance, count):
    """The text of a module with so many functions for a host, call0 and so on."""
    maker = Maker(chance)
    stack = "(global $__stack_pointer (mut i64) (i64.const 65536))"
    memory = '(memory $0 2) (export "memory" (memory $0))'
    functions = [maker.function(at) for at in range(count)]
    return "(module %s %s\n%s)" % (memory, stack, "\n".join(functions))
