"""The library for C: its headers, calls with rubbish, and each end of the library beside that of
the program; both ends in WebAssembly."""

import os
import re
import subprocess
import tempfile
from concurrent.futures import ThreadPoolExecutor

from support.cases import NEEDS_LRZSZ, case, cases, sentence
from support.commands import command
from support.example_ends import c_receive, c_send, files, line_to, on_line, pair, wants_end
from support.library import BUILT, FLAGS, INCLUDE, LIBRARY, STRICT, built
from support.one_end import receiving, sending
from support.program import LIMIT, PROGRAM, ROOT, folders, wants_stored, write_files
from support.relay import Seeded
from support.skipping import Skipped, needs


WASM = "wasm64-unknown-unknown"
SOURCES = " ".join(
    "tests/library/%s.c" % name for name in ("beside", "program", "sends", "receives")
)

# Streams of deliveries that an end of the library and the program's hear, for each end, and how
# many are under way at once.
STREAMS = 10_000
WORKERS = 250

# The program that plays cases to an engine, what it says of a sender, and how many of it run side
# by side.
LINE_CASES = os.path.abspath(
    os.environ.get("LINE_CASES", os.path.join(ROOT, "crates", "line_cases", "out", "line_cases"))
)
PLAYED = re.compile(r"  (?:Ok\(\(\)\)|Err\(Closed\)) (\w+), \d+ done, 0 faults, wrote ([0-9a-f]*)")
PLAYED_AT_ONCE = 4


@sentence("the sizes of the structs")
def test_struct_sizes():
    """The structs are as docs/library.md says."""
    path = os.path.join(BUILT.name, "sizes.c")
    with open(path, "w") as it:
        it.write(
            '#include "ymodem.h"\n#include <stdio.h>\nint main(void) { printf("%zu %zu\\n",'
            " sizeof(ym_receiver), sizeof(ym_sender)); return 0; }\n"
        )
    out = os.path.join(BUILT.name, "sizes")
    command("cc", *FLAGS, "-I", INCLUDE, path, "-o", out)
    receiver, sender = map(int, command(out).split())
    assert receiver <= 1228 and sender <= 1331, "receiver %d, sender %d bytes" % (receiver, sender)


# A row of docs/library.md, and what is left of it for another compiler of the caller.
STACK = re.compile(r"^\| stack on x86-64: (.*) \| (?:at most )?([\d,]+) \|$", re.M)
SPARE = 64


@sentence("the stack that docs/library.md says")
def test_stack():
    """No call takes more than the page says, nor so much less that it says nothing."""
    if "YM_LIBRARY" in os.environ:
        raise Skipped("the page tells of the archive for x86-64")
    with open(os.path.join(ROOT, "docs", "library.md"), encoding="utf-8") as it:
        told = {name: int(most.replace(",", "")) for name, most in STACK.findall(it.read())}
    lines = command(built("tests/library/stack.c", "stack")).splitlines()
    found = {name: int(it) for name, it in (line.rsplit(" ", 1) for line in lines)}
    assert set(found) == set(told), "it tells of %s" % sorted(told)
    wrong = {it: most for it, most in told.items() if not 0 <= most - found[it] <= SPARE}
    assert not wrong, "the page says %s, and the calls take %s" % (wrong, found)


MAY_BE_MISSING = {"memcpy", "memmove", "memset", "memcmp"}


@sentence("what the archive leaves undefined")
def test_archive():
    """Nothing is undefined but the four, and nothing can be written."""
    needs("nm")
    missing = {
        line.split()[-1]
        for line in command("nm", "--undefined-only", LIBRARY).splitlines()
        if " U " in line
    }
    defined = {
        line.split()[-1]
        for line in command("nm", "--defined-only", LIBRARY).splitlines()
        if len(line.split()) == 3
    }
    assert missing - defined <= MAY_BE_MISSING, "undefined: %s" % " ".join(
        sorted(missing - defined - MAY_BE_MISSING)
    )
    written = [
        line
        for line in command("nm", "--defined-only", LIBRARY).splitlines()
        if len(line.split()) == 3 and line.split()[1] in "dDbBC"
    ]
    assert not written, "can be written: %s" % written


@cases(
    case("receive from send", c_receive, c_send),
    case("receive from sb", c_receive, lambda names: ["sb", "-q", *names], marks=NEEDS_LRZSZ),
    case(
        "receive from sb -k", c_receive, lambda names: ["sb", "-q", "-k", *names], marks=NEEDS_LRZSZ
    ),
    case("send to rb", lambda there: ["rb", "-q"], c_send, marks=NEEDS_LRZSZ),
)
def test_at_both_ends(receive, send):
    pair(receive, send)


@cases(
    case("receive from ymodem send"),
    case("receive from ymodem send, five deliveries damaged", Seeded(41, 0.2, 5)),
)
def test_from_program(line=None):
    """`ymodem send`, on a line that may be damaged, to the example."""
    with folders() as (here, there):
        batch = files()
        with sending(write_files(here, batch), line) as (send, called):
            with on_line(c_receive(there), called()) as receiver:
                send.ended().wants(0, "sender done %d finished\n" % len(batch))
                wants_end(receiver, "receive")
        wants_stored(there, batch)


@cases(
    case("send to ymodem receive"),
    case("send to ymodem receive, five deliveries damaged", Seeded(42, 0.2, 5)),
)
def test_to_program(line=None):
    """The example, on a line that may be damaged, to `ymodem receive`."""
    with folders() as (here, there):
        batch = files()
        write_files(here, batch)
        with receiving(there, line) as (receive, port):
            with on_line(
                c_send([name for name, _ in batch]), line_to(port, receive), cwd=here
            ) as sender:
                ended = receive.ended()
                assert ended.status == 0 and ended.out.endswith(
                    "receiver files %d finished\n" % len(batch)
                ), "receive: %r %r" % (ended.out, ended.err)
                wants_end(sender, "send")
        wants_stored(there, batch)


# ---- Calls with rubbish


@sentence("calls with rubbish under sanitizers")
def test_sanitized():
    needs("clang")
    path = built(
        "tests/library/calls.c",
        "calls-sanitized",
        "-g",
        "-fsanitize=address,undefined",
        "-fno-sanitize-recover=all",
        compiler="clang",
    )
    command(path, "50000", "1")


@sentence("calls with rubbish under valgrind")
def test_checked_by_valgrind():
    needs("valgrind")
    command(
        "valgrind", "-q", "--error-exitcode=9", built("tests/library/calls.c", "calls"), "3000", "2"
    )


@sentence("calls with rubbish")
def test_calls():
    command(built("tests/library/calls.c", "calls-alone"), "100000", "3")


@sentence("calls at the wrong time, rubbish, and what stays as it was")
def test_promises():
    command(built("tests/library/promises.c", "promises"))


@sentence("how ym_receive and ym_send end, over a line that is played")
def test_in_one_call():
    command(built("tests/library/io.c", "io"))


@sentence("ym_receive and ym_send over hosts of many kinds, each call of which fails in turn")
def test_hosts():
    command(built("tests/library/hosts.c", "hosts"))


# ---- The same deliveries to an end of the library and to the program's

# How an end can end.
ENDS = {
    "sender": ("running", "finished", "no-reply", "cancelled"),
    "receiver": (
        "running",
        "finished",
        "too-many-errors",
        "cancelled",
        "out-of-step",
        None,
        "sink-failed",
        "bad-header",
    ),
}


def streams(end, top, workers):
    """Makes streams of deliveries to this end of the library. Of every way to end there are
    some."""
    words = [built(SOURCES, "beside-" + end), end, PROGRAM, top, "0", str(STREAMS), str(workers)]
    done = subprocess.run(words, capture_output=True, text=True, timeout=LIMIT, check=False)
    assert done.returncode == 0, "status %d: %s" % (done.returncode, done.stderr[:900])
    *ends, _, _ = map(int, done.stdout.split())
    assert sum(ends) == STREAMS, "only %d streams" % sum(ends)
    never = [
        name for name, count in zip(ENDS[end], ends) if name not in (None, "running") and not count
    ]
    assert not never, "none ended %s" % never


@sentence("the library's receiver and the program's, %d streams" % STREAMS)
def test_beside_program():
    """Each delivery is answered alike, and both ends end alike. A stream that went otherwise is
    made again, since an end that had to wait for this machine has heard that nothing came."""
    with tempfile.TemporaryDirectory(prefix="ymodem-") as top:
        streams("receiver", top, WORKERS)


@sentence("the library's sender and the engine's, %d streams" % STREAMS)
def test_beside_engine():
    """The engine of `send` hears what the library's sender heard, over a port that plays it, and
    writes the same and ends alike. The program's own port hands on what it hears by moments, and
    its tests are others."""
    if not os.access(LINE_CASES, os.X_OK):
        raise Skipped("crates/line_cases is not built (make cases)")
    with tempfile.TemporaryDirectory(prefix="ymodem-") as top:
        streams("sender", top, PLAYED_AT_ONCE)
        with ThreadPoolExecutor(PLAYED_AT_ONCE) as pool:
            played = sum(
                pool.map(
                    wants_alike,
                    (os.path.join(top, "worker %d" % at) for at in range(PLAYED_AT_ONCE)),
                )
            )
    assert played == STREAMS, "only %d streams were played" % played


def wants_alike(folder):
    """Plays the cases of this folder, and gives how many they were."""
    played = 0
    with open(os.path.join(folder, "cases")) as cases, open(
        os.path.join(folder, "wanted")
    ) as wanted:
        with subprocess.Popen([LINE_CASES], stdin=cases, stdout=subprocess.PIPE, text=True) as it:
            for _, told, state in zip(it.stdout, it.stdout, wanted):
                came = PLAYED.fullmatch(told.rstrip("\n"))
                assert (
                    came and "%s %s\n" % came.groups() == state
                ), "stream %d of %s: %s, wanted %s" % (played, folder[-1], told[:90], state[:60])
                played += 1
    return played


@cases(
    case("the receiver that docs/library.md shows, from send", c_send),
    case("the receiver that docs/library.md shows, whose flash is erased first", c_send, ("12",)),
    case(
        "the receiver that docs/library.md shows, from sb",
        lambda names: ["sb", "-q", *names],
        marks=NEEDS_LRZSZ,
    ),
)
def test_as_shown(send, late=()):
    """The receiver that docs/library.md shows, as it stands there. Where it begins a file late, its
    sender has written block 0 twice, and lets the line clear."""
    with open(os.path.join(ROOT, "docs", "library.md"), encoding="utf-8") as it:
        found = re.search(
            r"^## A receiver, step by step\n\n```c\n(.*?)^```", it.read(), re.M | re.S
        )
    assert found, "docs/library.md shows no receiver"
    with tempfile.TemporaryDirectory(prefix="ymodem-") as top:
        with open(os.path.join(top, "shown.inc"), "w", encoding="utf-8") as it:
            it.write(found[1])
        program = built(
            "tests/library/shown.c", "-".join(("shown-by", send([])[0].split("/")[-1], *late)), "-I", top
        )
    pair(lambda there: [program, *late], send)


@sentence("both ends in WebAssembly, in node")
def test_in_node():
    """Both ends in one WebAssembly module, which the toolchain's linker makes of the archive, in
    node."""
    needs("node", "rt")
    kit = os.path.dirname(command("rt", "doc").strip())
    linker = os.path.join(kit, "bin", "rattle-link")
    if not os.access(linker, os.X_OK):
        raise Skipped("there is no %s" % linker)
    module = os.path.join(BUILT.name, "ymodem.wasm")
    command(
        linker,
        "--target",
        WASM,
        "--toolchain",
        os.path.join(kit, "toolchain"),
        "-o",
        module,
        os.path.join(ROOT, "out", "lib", WASM, "libymodem.a"),
    )
    # Older ones want this flag, and newer ones may not know it.
    flag = "--experimental-wasm-memory64"
    flags = (
        [flag]
        if subprocess.run(["node", flag, "--version"], capture_output=True, check=False).returncode
        == 0
        else []
    )
    ran = subprocess.run(
        [
            "node",
            *flags,
            "--no-warnings",
            os.path.join(ROOT, "tests", "library", "wasm.mjs"),
            module,
        ],
        capture_output=True,
        text=True,
        timeout=LIMIT,
        check=False,
    )
    if ran.returncode == 77:
        raise Skipped("node knows no memory of 64 bits: %s" % ran.stdout.strip())
    assert ran.returncode == 0, ran.stdout + ran.stderr


LANGUAGES = (("gcc", "clang"), "c", ("c99", "c11")), (
    ("g++", "clang++"),
    "c++",
    ("c++98", "c++11", "c++17"),
)
COMPILERS = [
    (it, language, standard)
    for some, language, standards in LANGUAGES
    for it in some
    for standard in standards
]


@cases(
    *(
        case("%s alone: %s, %s" % (header, it, standard), header, it, language, standard)
        for header in ("ymodem.h", "ymodem_io.h")
        for it, language, standard in COMPILERS
    )
)
def test_header_alone(header, compiler, language, standard):
    needs(compiler)
    words = ["-x", language, "-std=" + standard, *STRICT, "-fsyntax-only", "-I", INCLUDE]
    command(compiler, *words, "-include", header, "/dev/null")
