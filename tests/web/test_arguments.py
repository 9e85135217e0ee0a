"""What the module is called with: each argument works, or is refused before anything is written."""

import json

from support.cases import case, cases_in
from support.empty_page import Empty
from support.rooms import BROWSERS


# A port that counts what is written to it, and whose other end asks for a file.
ASKING = """(async () => {
  let count = 0;
  const port = {
    readable: new ReadableStream({ start: (it) => it.enqueue(Uint8Array.of(67)) }),
    writable: new WritableStream({ write: (bytes) => { count += bytes.length; } }),
  };
  const file = new File(["hello"], "a"), data = "hello", ends = [];
  const tries = async (call) => {
    const it = await tools.ended(call);
    ends.push(it.fault ? [it.code, it.fault] : it.code);
  };
  %s
  return JSON.stringify({ ends, count, locked: port.readable.locked || port.writable.locked });
})()"""

NO_LIST = "TypeError: files has to be a list, as [file]"


def sends(names, item):
    """Sends each of these alone."""
    return "for (const it of %s) await tries(y.send(port, [%s]));" % (names, item)


@cases_in(
    BROWSERS,
    case(
        "a file alone is no list",
        "await tries(y.send(port, file)); await tries(y.send(port, { name: 'a', data }));",
        [NO_LIST] * 2,
    ),
    case(
        "nothing is no list",
        "for (const it of [undefined, null, 5, {}]) await tries(y.send(port, it));",
        [NO_LIST] * 4,
    ),
    case(
        "no port",
        (
            "for (const it of [undefined, null, {}, 'COM1'])"
            " { await tries(y.send(it, [file])); await tries(y.receive(it)); }"
        ),
        ["device"] * 8,
    ),
    case(
        "what is no file",
        sends("[undefined, null, 5, 'a', {}, { name: 'a' }]", "file, it"),
        ["source-failed"] * 6,
    ),
    case(
        "data of another kind",
        sends("[file.text(), [1, 2, 3], 5, true, {}, [file]]", "file, { name: 'b', data: it }"),
        ["source-failed"] * 6,
    ),
    case(
        "a name that cannot be sent, behind one that can",
        sends("['', 'a/b', '/', '..', 'a\\nb', 'n'.repeat(256)]", "file, { name: it, data }"),
        [["bad-header", "name-empty"]]
        + [["bad-header", "name-unsafe"]] * 4
        + [["bad-header", "name-long"]],
    ),
    case(
        "no name",
        "await tries(y.send(port, [{ data }])); await tries(y.send(port, [new Blob(['x'])]));",
        [["bad-header", "name-empty"]] * 2,
    ),
    case(
        "a time that is none",
        sends("[-5, NaN, 2 ** 53, 'noon']", "file, { name: 'b', data, time: it }"),
        ["source-failed"] * 4,
    ),
)
def test_refused(room, script, wanted):
    """It is refused, nothing is written, and the streams are free."""
    with Empty(room) as page:
        got = json.loads(page.run(ASKING % script))
    assert got == {"ends": wanted, "count": 0, "locked": False}, "it came to %s" % got


@cases_in(BROWSERS, case("options of another kind"))
def test_options(room):
    """They are refused by a TypeError, nothing is written, and the streams are free."""
    script = """
      const stop = new AbortController();
      for (const it of [null, { signal: stop }, { signal: {} }, { heard: "C" }, { heard: [67] }]) {
        await tries(y.send(port, [file], it));
        await tries(y.receive(port, it));
      }"""
    with Empty(room) as page:
        got = json.loads(page.run(ASKING % script))
    ends = got.pop("ends")
    assert len(ends) == 10 and all(it.startswith("TypeError: ") for it in ends), ends
    assert got == {"count": 0, "locked": False}, "it came to %s" % got


@cases_in(
    BROWSERS,
    case(
        "a FileList",
        (
            "const it = new DataTransfer(); it.items.add(new File(['one'], 'a'));"
            " it.items.add(new File(['two'], 'b')); return it.files;"
        ),
        [["a", "one"], ["b", "two"]],
    ),
    case(
        "data of each kind",
        (
            "const of = (data) => ({ name: 'a', data }); const bytes = Uint8Array.of(0, 111, 110,"
            " 101, 0).subarray(1, 4); return new Set([of('one'), of(bytes), of(bytes.slice()"
            ".buffer), of(new DataView(bytes.buffer, 1, 3)), of(new Blob(['one'])),"
            " of(new File(['one'], 'b')), new File(['one'], 'a')]);"
        ),
        [["a", "one"]] * 7,
    ),
    case(
        "one name twice",
        "return [{ name: 'a', data: 'one' }, { name: 'a', data: 'two' }];",
        [["a", "one"], ["a", "two"]],
    ),
    case("no file at all", "return [];", []),
)
def test_taken(room, script, wanted):
    """All of it arrives, in order."""
    with Empty(room) as page:
        got = page.run(
            """(async () => {
      const [here, there] = tools.pair();
      const files = (() => { %s })();
      const [sent, received] = await Promise.all([y.send(here, files), y.receive(there)]);
      const got = [];
      for (const { name, file } of received.files) got.push([name, await file.text()]);
      return JSON.stringify({ got, sent: sent.files.length });
    })()"""
            % script
        )
    assert json.loads(got) == {"got": wanted, "sent": len(wanted)}, "it came to %s" % got
