"""The C that the pages show, and the headers, by what firmware is often compiled with: without a
warning, by gcc and clang, as C and as C++, for 64 and for 32 bits."""

import os
import re
import tempfile

from support.cases import case, cases
from support.commands import command
from support.library import INCLUDE, STRICT
from support.program import ROOT
from support.skipping import needs


WARY = [*STRICT, *("-W" + it for it in ("conversion", "shadow", "undef", "cast-qual"))]
WARY += ["-Wredundant-decls"]
THUMB = "clang --target=thumbv7m-none-eabi -ffreestanding"
IN_C = [
    (it, standard) for it in ("gcc", "clang", THUMB) for standard in ("c99", "c11")
]
IN_CPP = [("g++ -x c++", "c++17"), ("clang++ -x c++", "c++17")]

# What a listing takes as given: the functions of a host, and what they are about.
HOST = """static int uart, flash;
int uart_read(void *user, uint8_t *bytes, size_t len, uint32_t milliseconds);
int uart_write(void *user, const uint8_t *bytes, size_t len);
uint64_t uart_clock(void *user);
int begin(void *user, const ym_file *file);
int add(void *user, const uint8_t *bytes, size_t len);
int commit(void *user);
int about(void *user, size_t file, ym_file *told);
int fill(void *user, size_t file, uint64_t start, uint8_t *bytes, size_t len);
void print(const char *text);
int receive(void);
"""
LOADER = """size_t uart_read(uint8_t *bytes, size_t most, int milliseconds);
void uart_write(const uint8_t *bytes, size_t len);
uint32_t act(uint32_t kind, const uint8_t *bytes, uint64_t count, uint64_t length);
"""
IN_ONE_CALL = HOST + "int used(void);\nint used(void) {\n@\nreturn (int)error; }\n"
BOTH_WAYS = IN_ONE_CALL.replace("(int)error", "error == other")
STEP_BY_STEP = LOADER + "int used(void);\nint used(void) {\n@\nreturn (int)len; }\n"
READER = "uint32_t used(const uint8_t *bytes, size_t len);\n"
READER += READER.replace(";", " {") + "@\nreturn header.kind; }\n"

# Each listing: its page, the text before it, and the source that it stands in.
LISTINGS = {
    "a batch in one call": ("docs/library.md", "## A batch in one call\n\n", BOTH_WAYS),
    "a receiver": ("docs/library.md", "## A receiver, step by step\n\n", STEP_BY_STEP),
    "frames and block 0": ("docs/library.md", "read and write the body of block 0.\n\n", READER),
    "a firmware": ("docs/portable.md", "## In a firmware\n\n", HOST + "@"),
    "the README": ("README.md", r"\(docs/library\.md\)\)\.\n", IN_ONE_CALL),
}
PLACES = [
    (name, *it)
    for name in LISTINGS
    for it in (IN_C if name == "the README" else IN_C + IN_CPP)
]


def listing(name):
    """A source with what a page shows, which brings its own header or is given one."""
    page, before, around = LISTINGS[name]
    with open(os.path.join(ROOT, page), encoding="utf-8") as it:
        found = re.search(before + r"```c\n(.*?)^```", it.read(), re.M | re.S)
    assert found, "%s does not show %s" % (page, name)
    header = "ymodem_io.h" if HOST in around else "ymodem.h"
    shown = found[1].replace('#include "%s"\n' % header, "")
    return '#include "%s"\n%s' % (header, around.replace("@", shown))


@cases(*(case("%s as shown: %s, %s" % it, *it) for it in PLACES))
def test_listing(name, compiler, standard):
    needs(compiler.split()[0])
    with tempfile.TemporaryDirectory(prefix="ymodem-") as top:
        path = os.path.join(top, "shown.c")
        with open(path, "w", encoding="utf-8") as it:
            it.write(listing(name))
        how = ["-std=" + standard, *WARY, "-I", INCLUDE, "-c", path, "-o", os.devnull]
        command(*compiler.split(), *how)


HEADERS = [
    (header, *it) for header in ("ymodem.h", "ymodem_io.h") for it in IN_C + IN_CPP
]


@cases(*(case("%s, by wary firmware: %s, %s" % it, *it) for it in HEADERS))
def test_wary_header(header, compiler, standard):
    needs(compiler.split()[0])
    words = [*compiler.split(), *("-x c" if "c++" not in compiler else "").split()]
    how = ["-std=" + standard, *WARY, "-fsyntax-only", "-I", INCLUDE, "-include", header]
    command(*words, *how, os.devnull)


SOURCES = [
    "examples/%s.c" % it for it in ("c/send", "c/receive", "boards/back", "boards/small")
] + ["examples/boards/%s.c" % it for it in ("sum", "store", "print", "blocks")]


@cases(*(case("%s, by wary firmware" % it, it) for it in SOURCES))
def test_wary_example(path):
    """The examples of boards are for 32 bits too."""
    compilers = ["gcc", "clang"] + [THUMB] * ("/boards/" in path)
    for compiler in compilers:
        needs(compiler.split()[0])
        how = ["-std=c99", *WARY, "-fsyntax-only", "-I", INCLUDE]
        how += ["-I", os.path.join(ROOT, "examples", "boards")]
        command(*compiler.split(), *how, os.path.join(ROOT, path))
