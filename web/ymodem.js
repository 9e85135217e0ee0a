/* Sends and receives files by YMODEM over any pair of streams. */

/* They are a serial port of the browser, a WebSocket, or streams of your own. What is heard, what is written, how long is waited and when a transfer has ended is decided in
   ymodem.wasm, whose functions are proved (docs/library.md). Here stand only the streams, the files
   and the clock. */

import { Engine, load, supported } from "./engine.js";
import { MESSAGES, YmodemError } from "./errors.js";
import { Line } from "./line.js";
import { Receiving } from "./receiving.js";
import { Sending, Source } from "./sending.js";
import { openWebSocket } from "./websocket.js";

const MOST_FILES = 65535;

/** Takes files until the other end says that there are no more. */
async function receive(port, options = {}) {
  const engine = await Engine.start();
  const line = new Line(port, options);
  const receiving = new Receiving(engine, line, options);
  return finish(engine, line, receiving);
}

/** Sends files, in order. A file is a File, or a name and its data. */
async function send(port, files, options = {}) {
  if (!files?.[Symbol.iterator]) throw new TypeError("files has to be a list, as [file]");
  const sources = Array.from(files, (file) => new Source(file));
  if (sources.length > MOST_FILES) throw new YmodemError("too-many-files", MESSAGES["too-many-files"]);
  const engine = await Engine.start();
  const line = new Line(port, options);
  const sending = new Sending(engine, line, sources);
  return finish(engine, line, sending);
}

/** Runs a transfer, and lets go of the streams whatever comes of it. */
async function finish(engine, line, transfer) {
  let fault = null;
  try {
    await transfer.run();
  } catch (what) {
    fault = what instanceof YmodemError ? what : new YmodemError("device", String(what?.message ?? what), { cause: what });
  }
  if (line.thrown) fault = Object.assign(line.thrown, { answered: fault?.answered ?? true });
  if (fault) await transfer.abandon?.(fault);
  const rest = await line.release(transfer.rest);
  if (fault === null) {
    engine.end();
    return { files: transfer.files, rest };
  }
  fault.files = transfer.files;
  fault.rest = rest;
  throw fault;
}

export { YmodemError, load, openWebSocket, receive, send, supported };
