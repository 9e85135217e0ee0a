"""A serial port of a page, of the check's own."""

import json

from support.page import click, until_says


# A serial port whose line is a WebSocket. `fault` breaks its stream as an error of the line does.
# It may be opened without a question where it was chosen before, as a browser has it.
SERIAL = """
(() => {
  const made = { opened: [], closed: 0 };
  globalThis.fake = made;
  class Port {
    async open(options) {
      made.opened.push(options);
      this.socket = new WebSocket(made.address);
      this.socket.binaryType = 'arraybuffer';
      await new Promise((resolve, reject) => { this.socket.onopen = resolve; this.socket.onerror = () => reject(new DOMException('busy', 'NetworkError')); });
      this.renew();
      this.writable = new WritableStream({ write: (bytes) => this.socket.send(bytes) });
      this.socket.onmessage = ({ data }) => this.incoming.enqueue(new Uint8Array(data));
      this.socket.onclose = () => { this.readable = null; try { this.incoming.error(new DOMException('The device has been lost.', 'NetworkError')); } catch {} };
      made.fault = () => { const old = this.incoming; this.renew(); old.error(new DOMException('framing', 'FramingError')); };
    }
    getInfo() { return { usbVendorId: 0x0403, usbProductId: 0x6001 }; }
    renew() { this.readable = new ReadableStream({ start: (controller) => { this.incoming = controller; } }); }
    async close() {
      if (this.readable?.locked || this.writable?.locked) throw new TypeError('locked');
      made.closed++;
      this.socket.close();
    }
  }
  const requestPort = async () => {
    const closed = new DOMException('No port selected by the user.', 'NotFoundError');
    if (made.address === undefined) throw closed;
    localStorage.chosen = 'yes';
    return new Port();
  };
  const getPorts = async () => (localStorage.chosen ? [new Port()] : []);
  const serial = { requestPort, getPorts, addEventListener() {} };
  Object.defineProperty(navigator, 'serial', { value: serial });
})();
"""


def at_serial_port(page, address):
    """Chooses that port, and waits for the prompt of what is there."""
    page.run("fake.address = %s" % json.dumps(address))
    click(page, "#choose")
    until_says(page, "#screen", "=>")


# Bytes a second of a line of 115200 bits a second.
RATE = 11520
