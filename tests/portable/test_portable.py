"""The library for C as files for every processor, out/portable/ymodem.c, ymodem.h and
ymodem_io.h: that they are made the same twice, what they compile with, what they take on a
Cortex-M, and that they answer as the proved archive does, on 64 and on 32 bits.
"""

import glob
import os
import re
import subprocess
import sys
import tempfile
import threading

import pytest
from support.cases import case, cases, sentence
from support.commands import command
from support.compilers import BOARD, BOARD_32, COMPILERS, RUNS, RUNS_AT_LENGTH, WORDS_32
from support.library import LIBRARY, STRICT
from support.packages import FIXED, linked_program
from support.portable import HEADER, IO, PORTABLE, SOURCE
from support.portable_size import sizes
from support.program import ROOT
from support.skipping import Skipped, needs


TESTS = os.path.join(ROOT, "tests")
WASM = os.path.join(ROOT, "out", "lib", "wasm64-unknown-unknown", "libymodem.a")
BUILT = tempfile.TemporaryDirectory(prefix="ymodem-portable-")
SUITE = threading.Lock()
PYTEST = [sys.executable, "-B", "-m", "pytest", "-q"]

STANDARDS = ("c99", "c11")
LEVELS = ("-O0", "-Os", "-O2", "-O3")
FEW = (("c99", "-Os"), ("c11", "-O2"))

# A program, where the headers are those for the processor.
EMPTY = """#include <stdint.h>
#include <string.h>
typedef char pointer[sizeof(uintptr_t) == sizeof(void *) ? 1 : -1];
int main(void) { return 0; }
"""
CALLS, SEEDS = 100_000, (1, 20261124)


def compiles(words, *more):
    """Skips the check where this compiler is not installed, or has no library for its processor."""
    needs(words.split()[0])
    made = os.path.join(BUILT.name, "empty-%d" % abs(hash((words, more))))
    how = [*words.split(), *more, "-x", "c", "-", "-o", made]
    ran = subprocess.run(how, input=EMPTY, capture_output=True, text=True, check=False)
    if ran.returncode:
        raise Skipped("%s makes no program here: %s" % (words, ran.stderr[:200]))


def compiled(words, standard, made, *files):
    """A program or an object of these files and the header, without a warning."""
    command(*words.split(), "-std=" + standard, *STRICT, "-I", PORTABLE, *files, "-o", made)


# gcc for Linux on other processors, which comes without C++: clang takes the headers there.
C_ALONE = ("ARM, Linux", "ARM, 64 bits", "RISC-V, 64 bits", "MIPS, little-endian")


def languages(name):
    """The languages in which both headers are tried by a compiler, and their standards."""
    found = {"c": STANDARDS, "c++": ("c++11", "c++17")}
    if name in C_ALONE:
        del found["c++"]
    return found.items()


def read(path):
    with open(path, encoding="utf-8") as it:
        return it.read()


@sentence("two runs make the same")
def test_is_same_twice():
    """Two runs, in folders of their own, make what stands in out/portable."""
    needs("rt", "wasm-opt", "wasm2c")
    assert os.path.isfile(WASM), "there is no %s: make portable" % WASM
    for prefix in ("ymodem-", "ymodem two "):
        with tempfile.TemporaryDirectory(prefix=prefix) as to:
            command(os.path.join(ROOT, "tools", "portable.py"), WASM, to)
            for path in (SOURCE, HEADER, IO):
                made = os.path.join(to, os.path.basename(path))
                assert read(path) == read(made), "%s differs" % path


HOST = """#include "ymodem_io.h"
ym_error moves(const ym_io *io, const ym_sink *sink, const ym_source *source);
ym_error moves(const ym_io *io, const ym_sink *sink, const ym_source *source) {
    return sink ? ym_receive(io, sink) : ym_send(io, source);
}
"""

# Compilers by themselves: of no C library the headers are there.
FREESTANDING = (
    "riscv64-unknown-elf-gcc",
    "clang --target=thumbv6m-none-eabi",
    "clang --target=riscv32-unknown-elf",
)


@cases(*(case("without a C library: " + words, words) for words in FREESTANDING))
def test_without_a_c_library(words):
    """The file and a host of ym_receive and ym_send compile where only the compiler's own headers
    are."""
    needs(words.split()[0])
    for standard, level in FEW:
        how = words + " -ffreestanding -c " + level
        compiled(how, standard, os.devnull, SOURCE)
        with tempfile.TemporaryDirectory(prefix="ymodem-") as top:
            host = os.path.join(top, "host.c")
            with open(host, "w", encoding="utf-8") as it:
                it.write(HOST)
            compiled(how, standard, os.devnull, host)


# Compilers for processors that begin a number with its greatest byte.
BIG_ENDIAN = (
    "arm-none-eabi-gcc -mbig-endian",
    "clang --target=mips-unknown-elf -ffreestanding",
    "clang --target=powerpc-unknown-elf -ffreestanding",
)


@cases(*(case("a big-endian processor is refused: " + words, words) for words in BIG_ENDIAN))
def test_big_endian(words):
    """The headers compile there, and the file says why it does not."""
    needs(words.split()[0])
    how = [*words.split(), "-std=c99", "-fsyntax-only", "-x", "c"]
    command(*how, HEADER)
    ran = subprocess.run([*how, SOURCE], capture_output=True, text=True, check=False)
    told = "ymodem.c is for little-endian processors"
    assert ran.returncode and told in ran.stderr, ran.stderr


def names(words):
    """What an object of the file defines, and what it lacks, with the kind of each."""
    needs("nm")
    made = os.path.join(BUILT.name, "names-%d.o" % abs(hash(words)))
    command(*words.split(), "-std=c99", "-O2", "-c", SOURCE, "-o", made)
    found = [line.split()[-2:] for line in command("nm", made).splitlines()]
    return {name: kind for kind, name in found}


@sentence("each call of ymodem.h, and nothing else, is in it")
def test_has_each_call():
    """The calls of the header and no other name are for its users; of others it needs three."""
    wanted = set(re.findall(r"^(?:void|uint32_t|uint64_t|size_t) (ym_\w+)\(", read(HEADER), re.M))
    found = names("gcc -fno-stack-protector")
    needed = {it for it, kind in found.items() if kind == "U"} - {"_GLOBAL_OFFSET_TABLE_"}
    defined = {it for it, kind in found.items() if kind in "TDBRCVW"}
    assert defined == wanted, "it defines %s" % found
    assert needed <= {"memcpy", "memmove", "memset"}, "it needs %s" % needed
    assert not {it for it, kind in found.items() if kind in "bBdDcC"}, "it keeps %s" % found


@pytest.mark.program
@sentence("what make dist has of it is enough for a host")
def test_has_all_for_a_host():
    """What stands in the tar file of `make dist` is what stands here, and a host of both calls that
    move a batch is made of it alone."""
    program = linked_program()
    needs("strip", "readelf")
    with tempfile.TemporaryDirectory(prefix="ymodem-dist-") as top:
        pack = os.path.join(ROOT, "packaging", "package.py")
        made = command(pack, "dist", program, top, PORTABLE, env=FIXED).strip()
        command("tar", "-xzf", made, "-C", top)
        [there] = glob.glob(top + "/*/share/ymodem/portable")
        for path in (SOURCE, HEADER, IO):
            assert read(path) == read(os.path.join(there, os.path.basename(path))), path
        with open(os.path.join(there, "host.c"), "w", encoding="utf-8") as it:
            it.write(HOST)
        how = ["-std=c99", *STRICT, "-O2", "-c", "host.c", "ymodem.c"]
        command("gcc", *how, cwd=there)


def played(made, run, calls, seed):
    if run in (BOARD, BOARD_32):
        # picolibc gives the program a name, and newlib takes the first word for it
        named = ",arg=calls" if run == BOARD else ""
        words = "%s%s,arg=%d,arg=%d -kernel" % (run, named, calls, seed)
        return command(*words.split(), made).splitlines()
    return command(*run.split(), made, str(calls), str(seed)).splitlines()


def driver(words, name, *files):
    made = os.path.join(BUILT.name, name)
    compiled(words, "gnu11", made, os.path.join(TESTS, "portable", "calls.c"), *files)
    return made


@cases(
    *(
        case("%d calls as the archive: %s" % (CALLS, name), *how, name)
        for name, how in RUNS.items()
    ),
    *(
        case("%d calls as the archive: %s" % (CALLS, name), *how, name, marks=pytest.mark.long)
        for name, how in RUNS_AT_LENGTH.items()
    ),
)
def test_answers_as_the_archive(words, run, name):
    """Each call answers as the proved archive's, and leaves the same bytes everywhere."""
    compiles(words)
    needs(*run.split()[:1])
    # an archive by the toolchain is for x86-64
    proved = driver("cc -O2", "proved-" + re.sub(r"\W", "-", name), LIBRARY)
    more = [os.path.join(TESTS, "portable", "vectors.c")] if run == BOARD else []
    made = driver(words, "played-" + re.sub(r"\W", "-", name), SOURCE, *more)
    for seed in SEEDS[: 1 if run else None]:
        one, other = played(proved, "", CALLS, seed), played(made, run, CALLS, seed)
        assert len(one) == CALLS == len(other), "%d and %d calls" % (len(one), len(other))
        for its, others in zip(one, other):
            told = "seed %d: call, which, answer, sum: the archive %s, this %s"
            assert its == others, told % (seed, its, others)


# Without those that need a library of 32 bits for a tool, or make the package for x86-64.
CHOSEN_32 = (
    "sizes",
    "receive from",
    "send to",
    "the library's r",
    "the library's s",
    "picocom",
    "socat starts",
    "the example's",
)


@cases(
    case("the checks of tests/library, on 64 bits", "-m64", marks=pytest.mark.long),
    case(
        "the checks of tests/library, on 32 bits",
        WORDS_32,
        (*CHOSEN_32,),
        marks=pytest.mark.long,
    ),
)
def test_suite(words, chosen=()):
    """The tests of tests/library, of an archive of this file."""
    compiles("cc " + words)
    needs("ar")
    with tempfile.TemporaryDirectory(prefix="ymodem-") as top:
        compiled("cc -O2 -fno-stack-protector -c " + words, "c99", top + "/ymodem.o", SOURCE)
        command("ar", "rcD", top + "/libymodem.a", top + "/ymodem.o")
        where = {**os.environ, "YM_LIBRARY": top + "/libymodem.a", "YM_CFLAGS": words}
        how = {"env": where, "capture_output": True, "text": True, "check": False}
        # hundreds of processes each: one behind the other
        words_of_it = [it for word in chosen for it in ("--check", word)]
        with SUITE:
            ran = subprocess.run([*PYTEST, os.path.join(TESTS, "library"), *words_of_it], **how)
    failed = [it for it in ran.stdout.splitlines() if it.startswith("FAILED")]
    assert ran.returncode == 0, "\n".join(failed) or ran.stdout[-900:] + ran.stderr[-900:]


SANITIZED = "-g -O1 -fsanitize=address,undefined -fno-sanitize-recover=all"

NAMED = COMPILERS.items()


@cases(
    *(
        case(
            "%s alone, %s: %s" % (told, language, name), words, language, standards, header, padded
        )
        for name, words in NAMED
        for header, told, padded in ((HEADER, "ymodem.h", ("-Wpadded",)), (IO, "ymodem_io.h", ()))
        for language, standards in languages(name)
    )
)
def test_header_alone(words, language, standards, header=HEADER, padded=("-Wpadded",)):
    """Every ABI has the layout that the header asserts, and none fills a struct in."""
    compiles(words, "-c")
    compiler, *flags = words.split()
    if language == "c++":
        compiler = re.sub("gcc$", "g++", compiler.replace("clang", "clang++"))
    needs(compiler)
    for standard in standards:
        how = ["-x", language, "-std=" + standard, *STRICT, *padded, "-fsyntax-only"]
        command(compiler, *flags, *how, "-include", header, "/dev/null")


# What firmware is often compiled with besides.
WARY = " -Wconversion -Wshadow -Wundef -Wcast-qual -Wredundant-decls"
EACH_LEVEL = [(standard, level) for standard in STANDARDS for level in LEVELS]


@cases(
    *(case("without a warning: " + name, words, FEW) for name, words in NAMED),
    *(
        case("without a warning, at each level: " + name, words, EACH_LEVEL, marks=pytest.mark.long)
        for name, words in NAMED
    ),
)
def test_without_a_warning(words, how):
    compiles(words, "-c")
    for standard, level in how:
        compiled(words + WARY + " -c " + level, standard, os.devnull, SOURCE)


M3, M0 = (COMPILERS[it] + " -Os" for it in ("Cortex-M3", "Cortex-M0+"))
UNDER_VALGRIND = ("valgrind", "-q", "--error-exitcode=9")


@cases(
    case("calls with rubbish: gcc -m32", "gcc -O2 " + WORDS_32, 50_000, 12),
    case("calls with rubbish under sanitizers", "clang " + SANITIZED, 20_000, 14),
    case("calls with rubbish: gcc", "gcc -O2", 50_000, 11, marks=pytest.mark.long),
    case(
        "calls with rubbish: gcc -O3, both files at once",
        "gcc -O3 -flto",
        50_000,
        13,
        marks=pytest.mark.long,
    ),
    case(
        "calls with rubbish under sanitizers: gcc -m32",
        "gcc %s %s" % (SANITIZED, WORDS_32),
        20_000,
        15,
        marks=pytest.mark.long,
    ),
    case(
        "calls with rubbish under valgrind",
        "gcc -O1 -g",
        1000,
        16,
        (*UNDER_VALGRIND,),
        marks=pytest.mark.long,
    ),
)
def test_rubbish(words, rounds, seed, before=()):
    """tests/library/calls.c, whose structs and buffers end where a page begins that faults."""
    compiles(words)
    needs(*before[:1])
    made = os.path.join(BUILT.name, "rubbish-%d" % seed)
    compiled(words, "gnu11", made, os.path.join(TESTS, "library", "calls.c"), SOURCE)
    command(*before, made, str(rounds), str(seed))


@cases(case("hosts of many kinds under sanitizers", "clang " + SANITIZED))
def test_hosts(words):
    """tests/library/hosts.c, with the file, whose accesses are looked at too."""
    compiles(words)
    made = os.path.join(BUILT.name, "hosts")
    compiled(words, "gnu11", made, os.path.join(TESTS, "library", "hosts.c"), SOURCE)
    command(made)


# Of a receiver's text, of its RAM with the stack, and of both ends' text.
LIMITS = (14 * 1024, 3584, 24 * 1024)


@cases(
    case("the sizes on a Cortex-M3", M3, *LIMITS), case("the sizes on a Cortex-M0+", M0, *LIMITS)
)
def test_fits(words, receiver, ram, both):
    """The text of a receiver and of both ends, and the RAM of a receiver with its calls' stack."""
    compiles(words, "-c")
    text, kept, stack = sizes(words, PORTABLE, "receiver")
    told = "a receiver: text %d, RAM %d, and %d of stack" % (text, kept, stack)
    assert text <= receiver and kept + stack <= ram, told
    text, _, _ = sizes(words, PORTABLE, "both")
    assert text <= both, "both ends: text %d" % text
