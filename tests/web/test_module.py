"""The module in a page without anything else: against `sb`, `rb` and `ymodem` behind a WebSocket,
and both ends in one page."""

import json
import os
import random
import re
import tempfile

import pytest
from support.cases import NEEDS_LRZSZ, case, cases_in
from support.commands import command
from support.empty_page import WEB, Empty, received, sends
from support.page import HELD
from support.program import ROOT, folders, wants_same, wants_stored, write_files
from support.relay import Seeded
from support.rooms import BROWSERS
from support.skipping import needs
from support.web_peers import Flips, lrzsz, program_receives, program_sends

# The module has so many bytes at most.
MODULE = 25_600


def files():
    """Thirty files."""
    chance = random.Random(77)
    sizes = (
        0,
        1,
        2,
        127,
        128,
        129,
        255,
        256,
        257,
        895,
        896,
        897,
        1022,
        1023,
        1024,
        1025,
        1151,
        1152,
        1153,
        2047,
        2048,
        3000,
        33333,
        65536,
        100001,
    )
    made = [("size-%d.bin" % size, chance.randbytes(size)) for size in sizes]
    made += [
        ("two words.txt", b"\x1a" * 200),
        ("n" * 100, b"\x18\x18\x04" * 100),
        ("Größe.txt", b"caf\xc3\xa9\n" * 90),
    ]
    return [*made, ("cancel.bin", b"\x18" * 2500), ("C.bin", b"C" * 1300)]


@cases_in(
    BROWSERS,
    case("receives thirty files from sb", marks=NEEDS_LRZSZ),
    case("receives thirty files from sb -k", ("-k",), marks=NEEDS_LRZSZ),
    case(
        "receives thirty files from sb, six blocks damaged",
        ("-k",),
        lambda: Flips(61, 6),
        marks=NEEDS_LRZSZ,
    ),
)
def test_from_sb(room, flags=(), damage=None):
    with folders() as (here, _), Empty(room) as page:
        batch = files()
        write_files(here, batch)
        with lrzsz(
            ["sb", "-q", *flags, *(name for name, _ in batch)], here, damage() if damage else None
        ) as (bridge, status):
            wants_same(received(page, bridge.address), dict(batch))
            assert status() == 0, "sb failed"


@cases_in(
    BROWSERS,
    case("sends thirty files to rb", marks=NEEDS_LRZSZ),
    case("sends thirty files to rb, six blocks damaged", lambda: Flips(62, 6), marks=NEEDS_LRZSZ),
)
def test_to_rb(room, damage=None):
    with folders() as (_, there), Empty(room) as page:
        batch = files()
        with lrzsz(["rb", "-q"], there, damage() if damage else None) as (bridge, status):
            sends(page, bridge.address, batch)
            assert status() == 0, "rb failed"
        wants_stored(there, batch)


@pytest.mark.program
@cases_in(
    BROWSERS,
    case("receives thirty files from ymodem send"),
    case(
        "receives thirty files from ymodem send, six deliveries damaged",
        lambda: Seeded(51, 0.05, 6),
    ),
)
def test_from_program(room, line=None):
    with folders() as (here, _), Empty(room) as page:
        batch = files()
        with program_sends(write_files(here, batch), line() if line else None) as (bridge, ended):
            wants_same(received(page, bridge.address), dict(batch))
            assert ended().status == 0, "ymodem send failed"


@pytest.mark.program
@cases_in(
    BROWSERS,
    case("sends thirty files to ymodem receive"),
    case(
        "sends thirty files to ymodem receive, six deliveries damaged", lambda: Seeded(52, 0.05, 6)
    ),
)
def test_to_program(room, line=None):
    with folders() as (_, there), Empty(room) as page:
        batch = files()
        with program_receives(there, line() if line else None) as (bridge, ended):
            sends(page, bridge.address, batch)
            assert ended().status == 0, "ymodem receive failed"
        wants_stored(there, batch)


# ---- What the module says of itself


@cases_in(BROWSERS, case("the fields of the structs"))
def test_layout(room):
    """The fields stand where a C compiler has them."""
    with open(os.path.join(ROOT, "web", "codes.js"), encoding="utf-8") as it:
        text = re.search(r"const LAYOUT = \{(.*?)\n\};", it.read(), re.S).group(1)
    asked = {
        name: dict(re.findall(r"(\w+): (\d+)", fields))
        for name, fields in re.findall(r"(\w+): \{([^}]*)\}", text)
    }
    inside = {
        "ym_receiver": {
            "length": "stand.length",
            "taken": "stand.taken",
            "blocks": "stand.blocks",
            "files": "stand.files",
            "state": "stand.state",
            "fault": "stand.fault",
            "in_file": "stand.in_file",
        },
        "ym_front": {"width": "size"},
    }
    lines, wanted = [], []
    for name, fields in asked.items():
        for field, at in fields.items():
            where = (
                "sizeof(%s)" % name
                if field == "size"
                else "offsetof(%s, %s)" % (name, inside.get(name, {}).get(field, field))
            )
            lines.append('printf("%%s %%zu\\n", "%s.%s", %s);' % (name, field, where))
            wanted.append("%s.%s %s" % (name, field, at))
    assert len(wanted) > 30, "the table was not found"
    with tempfile.TemporaryDirectory() as folder:
        source, program = os.path.join(folder, "layout.c"), os.path.join(folder, "layout")
        with open(source, "w", encoding="utf-8") as it:
            it.write(
                '#include "ymodem.h"\n#include <stdio.h>\nint main(void) { %s return 0; }\n'
                % " ".join(lines)
            )
        command("cc", "-I", os.path.join(ROOT, "include"), source, "-o", program)
        found = command(program).splitlines()
    assert found == wanted, "C says otherwise: %s" % sorted(set(found) ^ set(wanted))


def sizes(_):
    """What is shipped is as small as docs/web.md says."""
    sizes = {name: os.path.getsize(os.path.join(WEB, name)) for name in os.listdir(WEB)}
    small = sizes["ymodem.wasm"] <= MODULE and sum(sizes.values()) < 137_900
    assert small, "too large: %s" % sizes


@cases_in(BROWSERS, case("the sizes of what is shipped"))
def test_sizes(_):
    sizes(_)


@cases_in(BROWSERS, case("the calls of the module"))
def test_calls(room):
    """The module has the calls that are made, for memory of 32 bits, and needs nothing."""
    sources = os.path.join(ROOT, "web")
    called = set()
    for name in os.listdir(sources):
        with open(os.path.join(sources, name), encoding="utf-8") as it:
            called |= set(re.findall(r"\bcalls\.(ym_\w+)", it.read()))
    script = """
      const module = new WebAssembly.Module(require("fs").readFileSync(process.argv[1]));
      const { memory } = new WebAssembly.Instance(module, {}).exports;
      const names = WebAssembly.Module.exports(module).map((it) => it.name);
      console.log(JSON.stringify([names, WebAssembly.Module.imports(module).length]));
      // memory of 64 bits grows by a BigInt
      memory.grow(1);
    """
    needs("node")
    path = os.path.join(WEB, "ymodem.wasm")
    names, wanted = json.loads(command("node", "-e", script, path))
    assert set(names) == called | {"memory", "__heap_base"} and not wanted, "it has %s" % names


@cases_in(BROWSERS, case("two ends in one page"))
def test_exact(room):
    """Two ends of one page: names, lengths, stamps, and what a sink of one's own sees."""
    with Empty(room) as page:
        got = json.loads(
            page.run(
                """(async () => {
      const [here, there] = tools.pair();
      const seen = [], told = [], went = [];
      const onFile = (about) => ({ write: (bytes) => seen.push([about.name, bytes.length]), close: () => seen.push([about.name, "closed"]) });
      const files = [{ name: "a", data: new Uint8Array(1300), time: 1234567890, mode: 0o100644 }, new File(["hello"], "b")];
      const [sent, received] = await Promise.all([
        y.send(here, files, { onFrame: (it) => it.isOurs && went.push(it.text) }),
        y.receive(there, { onFile, onProgress: ({ file, files, bytes, length }) => told.push([file.name, files, bytes, length]) }),
      ]);
      return JSON.stringify({ seen, told, went, sent: sent.files, received: received.files, locked: here.readable.locked || there.writable.locked });
    })()"""
            )
        )
    assert got["seen"] == [
        ["a", 1024],
        ["a", 128],
        ["a", 128],
        ["a", 20],
        ["a", "closed"],
        ["b", 5],
        ["b", "closed"],
    ], (
        "the sink saw %s" % got["seen"]
    )
    assert got["received"] == [
        {"name": "a", "length": 1300, "time": 1234567890, "mode": 33188},
        {"name": "b", "length": 5},
    ], (
        "received %s" % got["received"]
    )
    assert got["sent"] == [{"name": "a", "length": 1300}, {"name": "b", "length": 5}], (
        "sent %s" % got["sent"]
    )
    assert (
        ["a", 0, 1172, 1300] not in got["told"]
        and ["a", 0, 1152, 1300] in got["told"]
        and got["told"][-1] == ["b", 2, 5, 5]
    ), ("progress %s" % got["told"])
    assert [it for it in got["went"] if it.startswith("block")] == [
        "block 0",
        "block 1",
        "block 2",
        "block 3",
        "block 4",
        "block 0",
        "block 1",
        "block 0",
    ], (
        "went %s" % got["went"]
    )
    assert not got["locked"], "the streams are locked"


@cases_in(BROWSERS, case("names and times as they arrive"))
def test_names_and_times(room):
    """A mark at the front of a name is part of it. Of a time whole seconds arrive."""
    names = ["\ufeff..", "\ufeff.", "\ufeff", "\ufeff\ufeffa", "a\ufeff"]
    with Empty(room) as page:
        got = page.run(
            """(async () => {
      const [here, there] = tools.pair();
      const files = %s.map((name) => ({ name, data: "x", time: 1234567890.75 }));
      const [, { files: got }] = await Promise.all([y.send(here, files), y.receive(there)]);
      return JSON.stringify(got.map(({ name, time, file }) => [name, time, file.name]));
    })()"""
            % json.dumps(names)
        )
    assert json.loads(got) == [[name, 1234567890, name] for name in names], "they are %s" % got


@cases_in(BROWSERS, case("a browser whose streams are held by a read"))
def test_held(room):
    """The module says that it is not supported there, and touches no stream."""
    with Empty(room, HELD) as page:
        got = page.run("""(async () => {
      const [port] = tools.pair();
      const { code } = await tools.ended(y.receive(port));
      return JSON.stringify([y.supported(), code, port.readable.locked || port.writable.locked]);
    })()""")
    assert json.loads(got) == [False, "no-webassembly", False], "it says %s" % got


# A clock by which ten seconds pass in one: for ends that only wait.
FASTER = """
(() => {
  const [now, wait] = [performance.now.bind(performance), setTimeout];
  performance.now = () => 10 * now();
  globalThis.setTimeout = (act, millis = 0) => wait(act, millis / 10);
})();
"""


BOTH = (
    "const ends = await Promise.all([tools.ended(%s), tools.ended(%s)]); return"
    " JSON.stringify(ends.map((it) => [it.code, it.files.length]));"
)

SENDS, RECEIVES = "y.send(here, [{ name: 'a', data }])", "y.receive(there)"


STOP = "const stop = new AbortController();"
# A function of the page that throws when it is called the third time.
THROWS = "let calls = 0; const act = () => { if (++calls === 3) throw new Error('mine'); };"
STUCK = (
    "const stuck = { readable: here.readable, writable: new WritableStream({ write: () => new"
    " Promise(() => {}) }) };"
)

# A receiver whose line takes every reply but the ACK of the end block.
LAST_ACK = """
  let isKept = false;
  const writer = there.writable.getWriter();
  const write = (bytes) => (isKept && bytes.length === 1 ? %s : writer.write(bytes));
  const port = { readable: there.readable, writable: new WritableStream({ write }) };
  const onProgress = ({ files }) => (isKept = files === 1);
  y.send(here, [{ name: "a", data }]).catch(() => {});
  const it = await tools.ended(y.receive(port, { onProgress }));
  return JSON.stringify([it.code, it.files.length, there.readable.locked]);"""


@cases_in(
    BROWSERS,
    case("the last ACK fails", LAST_ACK % "Promise.reject(new Error('gone'))", ["", 1, False]),
    case("the last ACK is stuck", LAST_ACK % "new Promise(() => {})", ["", 1, False], FASTER),
    case(
        "a name that cannot be sent",
        (
            "const it = await tools.ended(y.send(here, [{ name: 'a/b', data }], { heard:"
            " Uint8Array.of(67) })); return JSON.stringify([it.code, it.fault]);"
        ),
        ["bad-header", "name-unsafe"],
    ),
    case(
        "a sink that fails",
        BOTH
        % (
            "y.send(here, [{ name: 'a', data: '' }, { name: 'b', data }])",
            (
                "y.receive(there, { onFile: ({ name }) => { if (name === 'b') throw new"
                " Error('full'); } })"
            ),
        ),
        [["cancelled", 1], ["host-failed", 1]],
    ),
    case(
        "nobody sends",
        (
            "const it = await tools.ended(y.receive(there)); return JSON.stringify([it.code,"
            " it.answered]);"
        ),
        ["too-many-errors", False],
        FASTER,
    ),
    case(
        "nobody receives",
        (
            "const it = await tools.ended(y.send(here, [{ name: 'a', data }])); return"
            " JSON.stringify([it.code, it.answered]);"
        ),
        ["no-reply", False],
        FASTER,
    ),
    case(
        "the line takes nothing",
        STUCK + "const it = await tools.ended(y.receive(stuck)); return JSON.stringify([it.code]);",
        ["device"],
        FASTER,
    ),
    case(
        "the line is closed",
        (
            "here.writable.close(); const it = await tools.ended(y.receive(there)); return"
            " JSON.stringify([it.code]);"
        ),
        ["closed"],
    ),
    case(
        "the sender is stopped",
        STOP
        + BOTH
        % (
            "y.send(here, [{ name: 'a', data }], { signal: stop.signal })",
            "y.receive(there, { onProgress: ({ bytes }) => bytes > 2000 && stop.abort() })",
        ),
        [["aborted", 0], ["cancelled", 0]],
    ),
    case(
        "the receiver is stopped",
        STOP
        + BOTH
        % (
            "y.send(here, [{ name: 'a', data }])",
            (
                "y.receive(there, { signal: stop.signal, onProgress: ({ bytes }) => bytes > 2000 &&"
                " stop.abort() })"
            ),
        ),
        [["cancelled", 0], ["aborted", 0]],
    ),
    case(
        "a sender's onProgress throws",
        THROWS + BOTH % ("y.send(here, [{ name: 'a', data }], { onProgress: act })", RECEIVES),
        [["page-failed", 0], ["cancelled", 0]],
    ),
    case(
        "a sender's onFrame throws",
        THROWS + BOTH % ("y.send(here, [{ name: 'a', data }], { onFrame: act })", RECEIVES),
        [["page-failed", 0], ["cancelled", 0]],
    ),
    case(
        "a receiver's onProgress throws",
        THROWS + BOTH % (SENDS, "y.receive(there, { onProgress: act })"),
        [["cancelled", 0], ["page-failed", 0]],
    ),
    case(
        "a receiver's onFrame throws",
        THROWS + BOTH % (SENDS, "y.receive(there, { onFrame: act })"),
        [["cancelled", 0], ["page-failed", 0]],
    ),
    case(
        "a receiver's onProgress throws once a file is kept",
        BOTH % (SENDS, "y.receive(there, { onProgress: ({ files }) => files && nothing.there })"),
        [["cancelled", 1], ["page-failed", 1]],
    ),
    case(
        "a sender's onFrame throws at the last reply",
        (
            "const onFrame = ({ isOurs, text }) => { if (!isOurs && text === 'ACK') throw new"
            " Error('mine'); };"
        )
        + BOTH % ("y.send(here, [], { onFrame })", RECEIVES),
        [["page-failed", 0], ["", 0]],
    ),
    case(
        "what a function threw is the cause",
        (
            "const onFrame = () => { throw new Error('mine'); }; const it = await"
            " y.receive(there, { onFrame }).catch((it) => it); return JSON.stringify([it.code,"
            " it.message, it.cause.message, it instanceof y.YmodemError]);"
        ),
        ["page-failed", "onFrame threw", "mine", True],
    ),
    case(
        "items that cannot be sent",
        (
            "const items = [{ name: 'a' }, 'a', { name: 'a', data: null }, { name: 'a', data, time:"
            " -5 }, { name: 'a', data, time: NaN }, { name: 'a', data, time: 2 ** 53 }]; const"
            " ends = []; for (const it of items) ends.push((await tools.ended(y.send(here,"
            " [it]))).code); return JSON.stringify(ends);"
        ),
        ["source-failed"] * 6,
    ),
    case(
        "a port that is not open, and one that is locked",
        (
            "const ends = []; const tries = async (port) => ends.push((await"
            " tools.ended(y.send(port, []))).code); await tries({ readable: null, writable: null"
            " }); const writer = here.writable.getWriter(); await tries(here); await"
            " tries(here); ends.push(here.readable.locked); here.readable.getReader(); await"
            " tries(here); return JSON.stringify(ends);"
        ),
        ["device", "device", "device", False, "device"],
    ),
    case(
        "no module",
        (
            "const page = new Response('<!doctype html>'); const ends = []; for (const it of"
            " [Uint8Array.of(1, 2, 3), page, '/nothing.wasm', 'http://127.0.0.1:9/y.wasm'])"
            " ends.push((await tools.ended(y.load(it))).code); ends.push((await y.load())"
            " instanceof WebAssembly.Module); return JSON.stringify(ends);"
        ),
        ["no-module"] * 4 + [True],
    ),
    case(
        "stopped before it begins",
        (
            "const it = await tools.ended(y.receive(there, { signal: AbortSignal.abort() }));"
            " return JSON.stringify([it.code, here.readable.locked, there.readable.locked]);"
        ),
        ["aborted", False, False],
    ),
)
def test_ended_by(room, script, wanted, before=""):
    """A transfer that does not end well: its codes at both ends."""
    with Empty(room, before) as page:
        got = json.loads(
            page.run(
                "(async () => { const [here, there] = tools.pair(); const data = new"
                " Uint8Array(5000); %s })()" % script
            )
        )
    assert got == wanted, "%s, wanted %s" % (got, wanted)
