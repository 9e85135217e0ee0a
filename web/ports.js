/* Lines: serial ports of the browser, and WebSockets. */

import { openWebSocket } from "./ymodem.js";

/** A serial port's bytes. An error of the line (a break, a frame, a parity) loses bytes and no more: the browser then has a new stream. */
function steady(serial) {
  let reader = null;
  const pull = async (controller) => {
    while (serial.readable) {
      reader ??= serial.readable.getReader();
      try {
        const { done, value } = await reader.read();
        if (done) return controller.close();
        return controller.enqueue(value);
      } catch (fault) {
        reader.releaseLock();
        reader = null;
        if (!serial.readable) return controller.error(fault);
      }
    }
    return controller.close();
  };
  const stop = async () => {
    // a stream that has broken is none to cancel, and its port has to be closed all the same
    await reader?.cancel().catch(() => {});
    reader?.releaseLock();
    reader = null;
  };
  return { readable: new ReadableStream({ pull, cancel: stop }, { highWaterMark: 0 }), stop };
}

const hex = (number) => number.toString(16).padStart(4, "0");

/** What tells a port from others, and a person which it is; empty where it is no USB port. */
export function nameOf(serial) {
  const { usbVendorId, usbProductId } = serial.getInfo?.() ?? {};
  return usbVendorId === undefined ? "" : `USB ${hex(usbVendorId)}:${hex(usbProductId)}`;
}

/** The port of this name that the browser lets this page have without being asked. Of two of this
 *  name it is the one of before, or neither: the other one may be another device. */
export async function knownPort(name, before) {
  const ports = (await navigator.serial.getPorts?.()) ?? [];
  const found = ports.filter((it) => nameOf(it) === name);
  return found.length > 1 ? found.find((it) => it === before) : found[0];
}

/** Opens this serial port, or the one that the user chooses. */
export async function openSerial(speed, known) {
  const serial = known ?? (await navigator.serial.requestPort());
  await serial.open({ baudRate: speed, bufferSize: 65536 });
  const { readable, stop } = steady(serial);
  return {
    serial,
    readable,
    get writable() {
      return serial.writable;
    },
    name: `Serial port, ${speed.toLocaleString("en")} bit/s`,
    close: async () => {
      await stop();
      await serial.close();
    },
  };
}

/** Connects to a WebSocket. */
export async function openAddress(address) {
  const port = await openWebSocket(address);
  return { readable: port.readable, writable: port.writable, close: port.close, name: address };
}
