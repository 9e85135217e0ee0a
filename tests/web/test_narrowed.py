"""What web/narrow.py makes of functions: they answer what they did, by random bodies and numbers,
and so does the module of the page. What it does with some lines, and what it refuses."""

import os
import random
import tempfile

import build
import module
import narrow
import zeros
from support.cases import case, cases
from support.commands import command
from support.program import ROOT
from support.random_modules import SHORT, module as random_module
from support.skipping import needs


WEB = os.path.join(ROOT, "out", "web")
ARCHIVE = os.path.join(ROOT, "out", "lib", module.TARGET, "libymodem.a")
FUNCTIONS, SEEDS = 60, (1, 2, 3)
CALLS = 20_000

# Calls each function of two modules with the same numbers: the second one has the first parameters
# in 32 bits, and answers in 32 where its place is even.
COMPARE = """
  const [first, second] = process.argv.slice(1).map((it) => {
    const module = new WebAssembly.Module(require("fs").readFileSync(it));
    return new WebAssembly.Instance(module, {}).exports;
  });
  const few = [0n, 1n, 8n, 255n, 65536n, 2n ** 31n - 1n, 2n ** 31n, 2n ** 32n - 1n];
  const any = [...few, 2n ** 32n, 2n ** 32n + 1n, 2n ** 63n, 2n ** 64n - 1n];
  const memories = [first, second].map((it) => new Uint8Array(it.memory.buffer, 65536));
  const short = (it) => Number(BigInt.asIntN(32, it));
  for (const name of Object.keys(first).filter((it) => it !== "memory")) {
    const isShort = Number(name.slice(4)) % 2 === 0;
    for (const one of few) for (const two of few) for (const three of any) {
      const wanted = first[name](one, two, three);
      const found = second[name](short(one), short(two), three);
      const isSame = isShort ? short(wanted) === found : wanted === found;
      if (isSame && !Buffer.compare(...memories)) continue;
      console.log(`${name}(${one}, ${two}, ${three}): ${wanted}, and ${found}`);
      process.exit(1);
    }
  }
"""


def compiled(text, folder, name):
    """A module of this text, as a file."""
    path = os.path.join(folder, name)
    with open(path + ".wat", "w", encoding="utf-8") as it:
        it.write(text)
    command("wasm-opt", *module.FEATURES, path + ".wat", "-o", path)
    return path


def printed(path):
    """The text of this module, as wasm-opt writes it."""
    text = path + ".printed"
    command("wasm-opt", *module.FEATURES, "-g", "-S", path + ".wat", "-o", text)
    with open(text, encoding="utf-8") as it:
        return it.read()


@cases(*(case("narrow: random functions, %d" % it, it) for it in SEEDS))
def test_answers_the_same(seed):
    """Functions of random bodies do what they did."""
    needs("node", "wasm-opt")
    short = {"call%d" % it: (list(range(SHORT)), it % 2 == 0) for it in range(FUNCTIONS)}
    with tempfile.TemporaryDirectory() as folder:
        wide = compiled(random_module(random.Random(seed), FUNCTIONS), folder, "wide.wasm")
        less = compiled(narrow.narrowed(printed(wide), short), folder, "less.wasm")
        command("node", "-e", COMPARE, wide, less)


@cases(*(case("the module answers as the linked one, %d" % it, it) for it in SEEDS[:2]))
def test_is_as_linked(seed):
    """The module of the page answers as the linked one of which the addresses alone were cut."""
    needs("node", "rt", *module.TOOLS)
    with tempfile.TemporaryDirectory() as folder:
        wide, header = os.path.join(folder, "wide.wasm"), os.path.join(ROOT, "include/ymodem.h")
        module.linked(ARCHIVE, wide)
        module.chosen(wide, build.called())
        module.cut(wide, wide)
        words = [os.path.join(WEB, "ymodem.wasm"), str(CALLS), str(seed)]
        command("node", os.path.join(ROOT, "tests", "web", "calls.mjs"), header, wide, *words)


LINES = {
    "the low half of a sum": (
        "(i64.store8 (i32.wrap_i64 (i64.add (local.get $0) (local.get $2))) (i64.const 1))",
        "(i32.store8 (i32.add (local.get $0) (i32.wrap_i64 (local.get $2))) (i32.const 1))",
    ),
    "two small numbers that are compared": (
        "(if (i64.lt_u (local.get $0) (i64.const 5)) (nop))",
        "(if (i32.lt_u (local.get $0) (i32.const 5)) (nop))",
    ),
    "a sum that may be large": (
        "(if (i64.lt_u (i64.add (local.get $0) (local.get $1)) (i64.const 5)) (nop))",
        (
            "(if (i64.lt_u (i64.add (i64.extend_i32_u (local.get $0)) (i64.extend_i32_u "
            "(local.get $1))) (i64.const 5)) (nop))"
        ),
    ),
    "a pointer that is changed": (
        "(local.set $0 (local.get $2)) (i64.store (i32.const 8) (local.get $0))",
        "(local $0.own i64) (local.set $0.own (i64.extend_i32_u (local.get $0)))",
    ),
    "what is read whole": (
        "(i64.store (i32.const 8) (local.get $2))",
        "(i64.store (i32.const 8) (local.get $2))",
    ),
    "a small number that is stored whole": (
        "(i64.store (i32.const 8) (local.get $1))",
        "(i64.store (i32.const 8) (i64.extend_i32_u (local.get $1)))",
    ),
}


def with_body(line):
    names = " ".join("(param $%d i64)" % it for it in range(3))
    return '(module (export "a" (func $a)) (func $a %s %s))' % (names, line)


@cases(*(case("narrow: " + name, *it) for name, it in LINES.items()))
def test_line_becomes(old, new):
    made = narrow.narrowed(with_body(old), {"a": ([0, 1], False)})
    assert new in made, "it is %s" % made


def stores(*places):
    """Stores of zeros, of 8 bytes each."""
    text = "(i64.store offset=%d (local.get $0) (i64.const 0))"
    return " ".join(text % it for it in places)


# Some stores, and what is made of them.
FILLS = {
    "three behind one another": (
        stores(24, 8, 16),
        "(memory.fill (i32.add (local.get $0) (i32.const 8)) (i32.const 0) (i32.const 24))",
    ),
    "one behind a gap": (
        stores(0, 8, 16, 32),
        "(memory.fill (local.get $0) (i32.const 0) (i32.const 24)) " + stores(32),
    ),
    "two, which are quick as they are": (stores(80, 88), stores(80, 88)),
    "from two locals on": (
        stores(0, 8).replace("$0", "$1") + " " + stores(16, 24),
        stores(0, 8).replace("$0", "$1") + " " + stores(16, 24),
    ),
    "with a step between": (
        stores(0) + " (nop) " + stores(8, 16),
        stores(0) + " (nop) " + stores(8, 16),
    ),
}


@cases(*(case("zeros: " + name, *it) for name, it in FILLS.items()))
def test_stores_become(old, new):
    made = zeros.zeros_filled("(module (func $a %s))" % old)
    assert made == "(module (func $a %s))" % new, "it is %s" % made
