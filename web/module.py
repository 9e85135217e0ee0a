"""ymodem.wasm, made of the library for 64-bit WebAssembly.

The module is for 32-bit WebAssembly, which every browser runs: Debian's wasm-opt (package binaryen)
cuts each address of the linked one to 32 bits, and narrow.py moves these cuts to where numbers are
made. zeros.py fills zeros. It has the calls that it is asked for, and no others. What it asks of
itself when it runs is answered here, by tools/stack_room.py.
"""

import json
import os
import re
import shutil
import subprocess
import sys
import tempfile

sys.dont_write_bytecode = True
HERE = os.path.dirname(os.path.abspath(__file__))
ROOT = os.path.dirname(HERE)
sys.path[:0] = [HERE, os.path.join(ROOT, "tools")]

import narrow
import stack_room
from small import FAR
from zeros import zeros_filled

TARGET = "wasm64-unknown-unknown"
# Each call's stack is counted, and stays above its lowest bytes. The deepest takes some 4 KB.
STACK, UNUSED = 65536, 1024
# What the linked module uses of WebAssembly.
FEATURES = [
    "--enable-" + it
    for it in ("memory64", "bulk-memory", "sign-ext", "mutable-globals", "nontrapping-float-to-int")
]
TOOLS = ("wasm-opt", "wasm-metadce")
# How the module is made small, once its addresses have 32 bits. That its lowest bytes are not used
# is looked at here.
OFFSETS = ("--low-memory-unused", "--optimize-added-constants-propagate")
PACKED = ("--rse", "--ssa-nomerge", *OFFSETS, "-Oz")
# Then its control flow is taken apart and put together again, what that leaves is packed, and its
# locals are shared out anew.
APART = ("--flatten", "--rereloop", "--licm", "--precompute-propagate")
TOGETHER = ("--coalesce-locals-learning", "-Oz", "-Oz", "--code-folding", "--merge-blocks")
RELOOPED = (*APART, *TOGETHER, "--converge", "--rse", "-Oz")
LOCALS = ("--merge-locals", "--coalesce-locals", "--simplify-locals", "--reorder-locals", "-Oz")
PROTOTYPE = re.compile(r"^(\w+) (ym_\w+)\(([^)]*)\);$", re.M)


class Refused(Exception):
    """There is no module of this."""


# What is raised here where there is none.
REFUSALS = (Refused, stack_room.Refused)


def said(*words):
    how = {"stdout": subprocess.PIPE, "stderr": subprocess.STDOUT, "text": True}
    ran = subprocess.run(words, check=False, **how)
    if ran.returncode != 0:
        raise Refused("%s: %s" % (words[0], ran.stdout))
    return ran.stdout.strip()


def signatures():
    """Of each call of ymodem.h: which of its parameters are pointers or lengths, and whether it
    answers a length."""
    with open(os.path.join(ROOT, "include", "ymodem.h"), encoding="utf-8") as it:
        header = re.sub(r"\n +", " ", it.read())
    return {
        name: (of_memory(given.split(", ")), kind == "size_t")
        for kind, name, given in PROTOTYPE.findall(header)
    }


def of_memory(parameters):
    """Which of these are pointers or lengths."""
    return [at for at, it in enumerate(parameters) if "*" in it or it.startswith("size_t ")]


def linked(archive, out):
    """The module of 64-bit memory, with every call of the library."""
    kit = os.path.dirname(said("rt", "doc"))
    linker = os.path.join(kit, "bin", "rattle-link")
    where = ["--target", TARGET, "--toolchain", os.path.join(kit, "toolchain")]
    said(linker, *where, "--stack", str(STACK), "-o", out, archive)


def chosen(module, calls):
    """The same with these calls alone."""
    exports = ["memory", "__heap_base", *sorted(calls)]
    graph = [{"name": it, "export": it} for it in exports]
    graph.append({"name": "the page", "reaches": exports, "root": True})
    listed = module + ".json"
    with open(listed, "w", encoding="utf-8") as it:
        json.dump(graph, it)
    said("wasm-metadce", *FEATURES, "-g", "--graph-file", listed, module, "-o", module)


def cut(module, out):
    """The same for memory of 32 bits, with no more done to it."""
    said("wasm-opt", *FEATURES, "--memory64-lowering", module, "-o", out)


def small(module):
    """The same with what it needs alone."""
    text = module + ".wat"
    said("wasm-opt", *FEATURES, "-g", "--ssa-nomerge", "-S", module, "-o", text)
    rewrite(text, roomy)
    lowered = ("-g", "-Oz", "--memory64-lowering", "--ssa-nomerge", "-S")
    said("wasm-opt", *FEATURES, *lowered, text, "-o", text)
    rewrite(text, lambda it: narrow.narrowed(it, signatures()))
    said("wasm-opt", *FEATURES, *PACKED, "-g", "-S", text, "-o", text)
    rewrite(text, zeros_filled)
    said("wasm-opt", *FEATURES, *PACKED, text, "-o", module)
    said("wasm-opt", *FEATURES, *RELOOPED, module, "-o", module)
    said("wasm-opt", *FEATURES, *LOCALS, module, "-o", module)


def roomy(text):
    """The text of a module without its questions for room, which the stack has."""
    text, needs = stack_room.unasked(text)
    deepest = max(needs.values())
    if deepest + UNUSED + FAR > STACK:
        raise Refused("a call needs %d bytes of stack" % deepest)
    return text


def rewrite(name, how):
    """Puts into a file what is made of its text."""
    with open(name, encoding="utf-8") as it:
        text = how(it.read())
    with open(name, "w", encoding="utf-8") as it:
        it.write(text)


def bare(module):
    """The module without its custom sections: names for a debugger, and who made it."""
    kept, at = module[:8], 8
    while at < len(module):
        start, at, size, shift = at, at + 1, 0, 0
        while True:
            byte = module[at]
            size |= (byte & 127) << shift
            at, shift = at + 1, shift + 7
            if byte < 128:
                break
        at += size
        if module[start] != 0:
            kept += module[start:at]
    return kept


def made(archive, calls):
    """The module as it is shipped, with these calls."""
    for tool in TOOLS:
        if not shutil.which(tool):
            raise Refused("%s is missing: apt-get install binaryen" % tool)
    with tempfile.TemporaryDirectory(prefix="ymodem-web-") as folder:
        module = os.path.join(folder, "ymodem.wasm")
        linked(archive, module)
        chosen(module, calls)
        small(module)
        with open(module, "rb") as it:
            return bare(it.read())
