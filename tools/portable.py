#!/usr/bin/env python3
"""Makes the library for C as one pair of files, OUT/ymodem.c and OUT/ymodem.h, for any C99
compiler and any little-endian processor of 32 or 64 bits, of the proved archive for wasm64. Beside
it comes OUT/ymodem_io.h, the calls that move a whole batch, as it stands in include/.

The archive is linked into a module. Debian's wasm-opt (package binaryen) turns that into 32-bit
WebAssembly, and wasm2c (package wabt) that into C. This script takes the functions out of it and
puts tools/portable.c.in around them, with each call of include/ymodem.h.

**The module's memory is the machine's own.** Its addresses are numbers of 64 bits, of which
wasm-opt cuts off the upper half right before each access. That cut is taken away here, so an
address is a pointer of the machine, cast to a number: to the caller's struct or buffer, to the
module's stack, which stands in the C function that was called, or to its constants. Each comes from
a pointer to the very object that it is used on, as gcc and clang ask. Where a number in the code is
the address of a constant is found by linking twice, with the constants at two places: the numbers
that differ are those.

**What is checked in what wasm2c writes, and why the core never comes there.** The core is proved on
the abstract machine. The back end, the linker, wasm-opt, wasm2c and this script have to keep it.
- Each access, against the size of the memory. Taken out: the core is proved to stay within what it
  is given, and a native build has no such check either.
- `unreachable`, at a panic. Stays, as a loop for ever: the core is proved never to panic.
- A divisor of 0. Taken out: each divisor stands in the code as a number, which is looked at here.
- The room of the stack, by the back end. Taken out by stack_room.py, which counts what each call
  needs, over all that it calls: each call brings as much.
- A call within a call, by the linker. Taken out there too: each call has a stack pointer of its
  own.
- An indirect call, a number with a fraction: there is none, or this script ends.

usage: portable.py ARCHIVE OUT
"""

import os
import re
import shutil
import subprocess
import sys
import tempfile

sys.dont_write_bytecode = True

from stack_room import Refused, unasked

ROOT = os.path.dirname(os.path.dirname(os.path.abspath(__file__)))
TARGET = "wasm64-unknown-unknown"
# Where the constants stand, in the two modules: behind a stack of this size.
PLACES = (65536, 131072)
# What the tools say of themselves, as they were when this script was tried.
KNOWN = {"wasm-opt": "wasm-opt version 108", "wasm2c": "1.0.32"}
PACKAGES = {"wasm-opt": "binaryen", "wasm2c": "wabt"}
FEATURES = ("memory64", "bulk-memory", "sign-ext", "mutable-globals", "nontrapping-float-to-int")

FUNCTION = re.compile(
    r"^static (u32|u64|void) w2c_(\w+)\(Z_ym_instance_t\* instance(.*?)\) \{\n(.*?)^\}\n",
    re.M | re.S,
)
SEGMENT = "data_segment_data_w2c__rodata"
DATA = re.compile(r"^static const u8 %s\[\] = \{\n(.*?)\};\n" % SEGMENT, re.M | re.S)
LOADED = re.compile(r"LOAD_DATA\(instance->w2c_memory, (\d+)u, %s, (\d+)\);" % SEGMENT)
NUMBER = re.compile(r"\b(\d+)(?:ull|u)\b")
DECLARED = re.compile(r"^  (u32|u64) ([^;()]*);\n", re.M)
MEMORY = "&instance->w2c_memory, "
ACCESS = re.compile(r"\b(i(?:32|64)_(?:load|store)\w*)\(%s\(u64\)\(w2c_i(\d+)\)" % MEMORY)
COPIED = re.compile(r"\bmemory_copy\(%sw2c_i(\d+), w2c_i(\d+), w2c_i(\d+)\)" % (MEMORY * 2))
FILLED = re.compile(r"\bmemory_fill\(%sw2c_i(\d+), (w2c_i\d+), w2c_i(\d+)\)" % MEMORY)
STACK = "instance->w2c___stack_pointer"
DIVISION = re.compile(r"DIV_U\((\w+), w2c_([ij]\d+)\)")
PROTOTYPE = re.compile(r"^(void|uint32_t|uint64_t|size_t) (ym_\w+)\(([^)]*)\);$", re.M)
# A comparison of numbers with a sign, which wasm2c casts to their type. It is one of 32 bits.
COMPARED = re.compile(r"(\bw2c_i\d+ = )\(u64\)(?=\(\(s64\)\w+ [<>]=? \(s64\)\w+\);)")
# What is not to be left of the module.
LEFT = re.compile(
    r"instance|w2c_|TRAP|CALL_INDIRECT|\bf32|\bf64|DIV|REM_|ROT[LR]|CLZ|CTZ|POPCNT|TRUNC"
)
PART = re.compile(r"i(32|64)_(load|store)(\d*)_?(s?)u?")



def wants(holds, text):
    if not holds:
        sys.exit("portable.py: " + text)


def said(*words):
    how = {"stdout": subprocess.PIPE, "stderr": subprocess.STDOUT, "text": True}
    ran = subprocess.run(words, check=False, **how)
    wants(ran.returncode == 0, "%s: %s" % (words[0], ran.stdout))
    return ran.stdout.strip()


def read(*names):
    with open(os.path.join(ROOT, *names), encoding="utf-8") as it:
        return it.read()


def versions():
    """What the tools say of themselves. One that is missing or unknown ends this script."""
    found = {}
    for tool, known in KNOWN.items():
        wants(shutil.which(tool), "%s is missing: apt-get install %s" % (tool, PACKAGES[tool]))
        found[tool] = said(tool, "--version")
        wants(
            found[tool] == known,
            "%s says %r, and this script was tried with %r (Debian 12). Another version may write "
            "C of another shape: add it to KNOWN in tools/portable.py, and keep it if "
            "make test-portable passes" % (tool, found[tool], known),
        )
    return "%s, wasm2c %s,\n   toolchain %s" % (*found.values(), said("rt", "--version"))


def translated(archive, place, folder):
    """What wasm2c writes with the constants at this place, what stack each call needs, and how many
    bytes the constants have: wasm-opt leaves out zeros at their end, since memory begins as zeros.
    """
    kit = os.path.dirname(said("rt", "doc"))
    linked, made = os.path.join(folder, "ymodem.wasm"), os.path.join(folder, "module.c")
    where = ["--target", TARGET, "--toolchain", os.path.join(kit, "toolchain")]
    linker = os.path.join(kit, "bin", "rattle-link")
    said(linker, *where, "--stack", str(place), "-o", linked, archive)
    features = ["--enable-" + it for it in FEATURES]
    text = linked + ".wat"
    said("wasm-opt", *features, "-g", "--ssa-nomerge", "-S", linked, "-o", text)
    with open(text, encoding="utf-8") as it:
        whole = it.read()
    short, needs = roomy(whole)
    with open(text, "w", encoding="utf-8") as it:
        # By the name of its export, as wasm2c calls one that has none.
        it.write(short.replace("(memory $0", "(memory $memory"))
    said("wasm-opt", *features, "-g", "-Os", text, "-o", linked)
    # By itself, so that a cut stands right before its access.
    said("wasm-opt", *features, "-g", "--memory64-lowering", linked, "-o", linked)
    said("wasm2c", linked, "-n", "ym", "-o", made)
    with open(made, encoding="utf-8") as it:
        return it.read(), needs, constants_end(whole) - place


def constants_end(text):
    """Where the constants of a linked module end, as the linker says."""
    (name,) = re.findall(r'\(export "__heap_base" \(global (\S+?)\)\)', text)
    (end,) = re.findall(r"\(global %s i64 \(i64\.const (\d+)\)\)" % re.escape(name), text)
    return int(end)


def roomy(text):
    """The module without its questions for room, and what stack each call needs."""
    try:
        return unasked(text)
    except Refused as why:
        return sys.exit("portable.py: %s" % why)


# ---- Constants


def constants(text, start, length):
    """The bytes from the place of the constants on, with those zeros that the module leaves out."""
    body, loaded = DATA.findall(text), LOADED.findall(text)
    wants(len(body) == len(loaded) == 1, "the constants are not in one piece")
    found = [int(it, 16) for it in re.findall(r"0x[0-9a-f]{2}", body[0])]
    at, size = map(int, loaded[0])
    wants(len(found) == size and at >= start, "the constants are not where they were")
    there = [0] * (at - start) + found
    wants(len(there) <= length, "the constants are longer than the linker says")
    return there + [0] * (length - len(there))


def with_constants(one, other, size):
    """A function with each address of a constant as its place: the numbers that differ."""
    alike = NUMBER.sub("#", one) == NUMBER.sub("#", other)
    wants(alike, "the two modules differ in more than numbers")
    others = iter(NUMBER.findall(other))

    def put(found):
        number, moved = int(found[1]), int(next(others))
        place = number - PLACES[0]
        is_moved = moved - number == PLACES[1] - PLACES[0] and 0 <= place <= size
        wants(number == moved or is_moved, "the two modules differ in the number %d" % number)
        return found[0] if number == moved else "CONSTANT(%du)" % place

    return NUMBER.sub(put, one)


# ---- Functions


class Function:
    """A function of the module, which is rewritten line by line."""

    def __init__(self, result, name, params, body):
        self.result, self.name = result, name
        self.short = "core_" + "_".join(name.split("__")[-2:])
        self.params = re.sub(r"w2c_", "", params)
        declared = DECLARED.findall(body)
        self.types = {it: kind for kind, some in declared for it in re.findall(r"w2c_(\w+)", some)}
        lines = DECLARED.sub("", body).splitlines()
        self.lines = [it for it in lines if not re.fullmatch(r" *FUNC_(PRO|EPI)LOGUE;", it)]

    def put(self, i, pattern, text):
        self.lines[i] = pattern.sub(lambda _: text, self.lines[i])

    def assigned(self, i, name):
        """The last line before this one that assigns a name, and what."""
        for at in range(i - 1, -1, -1):
            found = re.match(r"\s*w2c_%s (\S*)= (.*);$" % name, self.lines[at])
            if found:
                wants(not found[1], "%s: %s is changed" % (self.name, name))
                return at, found[2]
        return sys.exit("portable.py: %s: no %s" % (self.name, name))

    def number(self, i, name):
        """The number that a name was given before this line; -1 for anything else."""
        found = NUMBER.fullmatch(self.assigned(i, name)[1])
        return int(found[1]) if found else -1

    def uncut(self, i, slot):
        """The number of 64 bits whose upper half was cut off for this access."""
        at, value = self.assigned(i, "i" + slot)
        wide = "w2c_j" + slot
        wants(value == "(u32)(%s)" % wide, "%s: an address is %s" % (self.name, value))
        is_changed = any(re.match(r"\s*%s \S*= " % wide, it) for it in self.lines[at:i])
        wants(not is_changed, "%s: %s is used twice" % (self.name, wide))
        self.lines[at] = ""
        return wide

    def widen(self):
        """Each access by its address of 64 bits."""
        for i, line in enumerate(self.lines):
            found = ACCESS.search(line)
            if found:
                self.put(i, ACCESS, "%s(%s" % (found[1], self.uncut(i, found[2])))
            found = COPIED.search(line)
            if found:
                wide = ", ".join(self.uncut(i, it) for it in found.groups())
                self.put(i, COPIED, "memory_copy(%s)" % wide)
            found = FILLED.search(line)
            if found:
                wide = self.uncut(i, found[1]), found[2], self.uncut(i, found[3])
                self.put(i, FILLED, "memory_fill(%s, %s, %s)" % wide)

    def divide(self):
        """Each divisor is a number, and not 0."""
        for i, line in enumerate(self.lines):
            found = DIVISION.search(line)
            if found:
                wants(self.number(i, found[2]) > 0, "%s: a divisor" % self.name)
                self.put(i, DIVISION, "%s / w2c_%s" % found.groups())

    def prune(self):
        """Takes away what is assigned and never read."""
        while True:
            text = "\n".join(self.lines)
            unread = [it for it in self.types if not re.search(r"\bw2c_%s\b(?! = )" % it, text)]
            gone = re.compile(r"\s*w2c_(%s) = (.*);$" % "|".join(unread)) if unread else None
            if not gone or not any(gone.match(it) for it in self.lines):
                self.types = {it: kind for it, kind in self.types.items() if it not in unread}
                return
            kept = lambda it: "  %s;" % it[2] if "(instance" in it[2] else ""
            self.lines = [gone.sub(kept, it) for it in self.lines]

    def head(self):
        return "static %s %s(struct core *core%s)" % (self.result, self.short, self.params)

    def text(self, shorts):
        lines = [it for it in self.lines if it.strip()]
        for kind in ("u32", "u64"):
            names = [it for it, of in self.types.items() if of == kind]
            for at in range(0, len(names), 8):
                some = ", ".join("%s = 0" % it for it in names[at : at + 8])
                lines.insert(0, "  %s %s;" % (kind, some))
        body = "\n".join(lines).replace(STACK, "core->stack").replace("UNREACHABLE;", "STOP")
        body = re.sub(r"\bw2c_(\w+)\(instance", lambda it: shorts[it[1]] + "(core", body)
        body = body.replace("I64_CTZ", "trailing_zeros")
        body = COMPARED.sub(r"\1(u32)", body)
        body = re.sub(r"\bw2c_([ijlpBL]\w*)", r"\1", body)
        wants(not LEFT.search(body), "%s: it has %s" % (self.name, LEFT.findall(body)[:1]))
        given = ["core", *re.findall(r"p\d+", self.params)]
        unread = [it for it in given if not re.search(r"\b%s\b" % it, body)]
        unused = "".join("  (void)%s;\n" % it for it in unread)
        return "%s {\n%s%s\n}\n" % (self.head(), unused, body)


# ---- The file


def access(name):
    """The definition of a load or a store of the module."""
    whole, kind, bits, sign = PART.fullmatch(name).groups()
    it, full, sign = bits or whole, "u" + whole, sign or "u"
    if kind == "store":
        return "DEFINE_STORE(%s, u%s, %s)" % (name, it, full)
    return "DEFINE_LOAD(%s, %s%s, %s%s, %s)" % (name, sign, it, sign, whole, full)


def calls(needs, header):
    """Each call of the header, by the function of the module, and with the stack that it needs."""
    found = PROTOTYPE.findall(re.sub(r"\n +", " ", header))
    wants({it[1] for it in found} == set(needs), "the header has other calls than the module")
    for result, name, params in found:
        named = [(it, re.search(r"\w+$", it)[0]) for it in params.split(", ")]
        given = ["ADDRESS(%s)" % it if "*" in whole else it for whole, it in named]
        answer = "core_%s(%s);" % (name, ", ".join(["&core", *given]))
        answer = answer if result == "void" else "return (%s)%s" % (result, answer)
        size = (needs[name] + 15) // 16 * 16
        yield "%s %s(%s) {\n    ENTER(%d);\n    %s\n}\n" % (result, name, params, size, answer)


def rewritten(one, other, size):
    """The functions of the module, by their names."""
    found = {}
    for its, others in zip(FUNCTION.findall(one), FUNCTION.findall(other)):
        wants(its[:3] == others[:3], "the two modules have other functions")
        it = Function(*its[:3], with_constants(its[3], others[3], size))
        it.widen()
        it.divide()
        it.prune()
        found[it.name] = it
    wants(len({it.short for it in found.values()}) == len(found), "two functions of one name")
    return found


def portable(one, other, needs, length):
    """The file, of what wasm2c writes of the two modules."""
    data, header = constants(one, PLACES[0], length), read("include", "ymodem.h")
    wants(data == constants(other, PLACES[1], length), "a constant has an address")
    functions = rewritten(one, other, len(data))
    shorts = {name: it.short for name, it in functions.items()}
    texts = [it.text(shorts) for it in functions.values()]
    used = sorted(set(re.findall(r"\b(i\d\d_(?:load|store)\w*)\(", "".join(texts))))
    rows = [data[at : at + 16] for at in range(0, len(data), 16)]
    heads = [it.head() + ";" for it in functions.values()]
    values = {
        "VERSIONS": versions(),
        "VERSION": said(os.path.join(ROOT, "tools", "version.py")),
        "SIZE": str(len(data)),
        "ACCESSES": "\n".join(map(access, used)),
        "CONSTANTS": "\n".join("    " + " ".join("%d," % it for it in row) for row in rows),
        "FUNCTIONS": "\n".join(heads) + "\n\n" + "\n".join(texts),
        "CALLS": "\n".join(calls(needs, header)).rstrip(),
    }
    return re.sub(r"@(\w+)@", lambda it: values[it[1]], read("tools", "portable.c.in"))


def main():
    if len(sys.argv) != 3:
        sys.exit(__doc__)
    archive, out = sys.argv[1:]
    versions()
    with tempfile.TemporaryDirectory(prefix="ymodem-portable-") as top:
        (one, *its), (other, *others) = (translated(archive, place, top) for place in PLACES)
        wants(its == others, "the two modules need other stacks, or have other constants")
        text = portable(one, other, *its)
    os.makedirs(out, exist_ok=True)
    headers = {name: read("include", name) for name in ("ymodem.h", "ymodem_io.h")}
    for name, put in {"ymodem.c": text, **headers}.items():
        with open(os.path.join(out, name), "w", encoding="utf-8") as it:
            it.write(put)
    print("%s/ymodem.c: %d lines, %d bytes" % (out, text.count("\n"), len(text)))


main()
