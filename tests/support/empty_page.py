"""An empty page with the module in it."""

import base64
import json
import os

from support.program import ROOT


WEB = os.path.join(ROOT, "out", "web")


TOOLS = """
globalThis.tools = {
  // what stands between a connection and a transfer
  over: (port) => port,
  bytes: (text) => Uint8Array.from(atob(text), (sign) => sign.charCodeAt(0)),
  text: async (file) => new Promise((resolve) => {
    const reader = new FileReader();
    reader.onload = () => resolve(reader.result.split(",")[1] ?? "");
    reader.readAsDataURL(file);
  }),
  pair() {
    const pipe = () => new TransformStream(undefined, { highWaterMark: 64 }, { highWaterMark: 64 });
    const [one, two] = [pipe(), pipe()];
    return [{ readable: one.readable, writable: two.writable }, { readable: two.readable, writable: one.writable }];
  },
  ended: (promise) => promise.then((done) => ({ code: "", ...done }), (fault) => ({ code: fault.code ?? String(fault), fault: fault.fault, files: fault.files, answered: fault.answered })),
};
"""


# Makes `y` of the module, as a page does that has it in a script of its own.
IMPORT = """new Promise((resolve, reject) => {
  const script = document.createElement("script");
  Object.assign(script, { type: "module", onerror: reject });
  globalThis.imported = (it) => resolve(void (globalThis.y = it));
  script.textContent = 'import * as it from "/ymodem.js"; imported(it);';
  document.head.append(script);
})"""


class Empty:
    """A page with the module as `y`, and with a script that runs before."""

    def __init__(self, room, before=""):
        self.page = room.browser.page(room.base + "/empty", TOOLS + before)
        self.page.run(IMPORT)

    def __enter__(self):
        return self.page

    def __exit__(self, *_):
        self.page.close()


def received(page, address):
    """The files that the page receives there: names and bytes."""
    script = """(async () => {
      const port = await y.openWebSocket(%s);
      // the port is open until the page is closed: the last answer may be under way
      const done = await y.receive(tools.over(port));
      const made = [];
      for (const { name, file } of done.files) made.push([name, await tools.text(file)]);
      return JSON.stringify(made);
    })()"""
    return {
        name: base64.b64decode(text)
        for name, text in json.loads(page.run(script % json.dumps(address)))
    }


def sends(page, address, batch):
    data = json.dumps([[name, base64.b64encode(text).decode()] for name, text in batch])
    script = """(async () => {
      const port = await y.openWebSocket(%s);
      const files = %s.map(([name, text]) => ({ name, data: tools.bytes(text) }));
      // and so here: the other end has its last answer to write
      const done = await y.send(tools.over(port), files);
      return done.files.length;
    })()"""
    assert page.run(script % (json.dumps(address), data)) == len(
        batch
    ), "not all files are reported as done"
