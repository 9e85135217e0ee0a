/* ymodem.wasm: an instance of it for each transfer, and where its structs have their fields. */

import { YmodemError } from "./errors.js";

const PAGE = 65536;
// Room for pieces that are written, as much as is taken at once: many frames.
const PIECES = 65536;

// A module that copies memory and extends a sign: the newest of what ymodem.wasm has.
const PROBE = Uint8Array.of(
  ...[0, 0x61, 0x73, 0x6d, 1, 0, 0, 0, 1, 4, 1, 0x60, 0, 0, 3, 2, 1, 0, 5, 3, 1, 0, 1],
  ...[10, 15, 1, 13, 0, 0x41, 0, 0xc0, 0x41, 0, 0x41, 0, 0xfc, 10, 0, 0, 0x0b],
);

/** Whether this browser lets a stream go while a read waits, and runs ymodem.wasm. Browsers before
 *  that rule throw, as do those that lack what is named here. */
export function supported() {
  try {
    const reader = new ReadableStream().getReader();
    reader.read().catch(() => {});
    reader.releaseLock();
    return BigInt64Array && WebAssembly.validate(PROBE);
  } catch {
    return false;
  }
}

let compiled = null;

/** Makes the module ready: from these bytes, this address, this answer of fetch, or ymodem.wasm beside this file. Calls by itself at the first transfer. */
export function load(source) {
  if (!supported()) {
    const fault = new YmodemError("no-webassembly", "this browser cannot run ymodem.wasm");
    return Promise.reject(fault);
  }
  if (source !== undefined || compiled === null) {
    compiled = compile(source ?? new URL("ymodem.wasm", import.meta.url)).catch((cause) => {
      compiled = null;
      throw new YmodemError("no-module", `ymodem.wasm: ${cause.message}`, { cause });
    });
  }
  return compiled;
}

/** Whether this has bytes in memory. */
export const isBytes = (it) => ArrayBuffer.isView(it) || it instanceof ArrayBuffer;

async function compile(source) {
  if (source instanceof WebAssembly.Module) return source;
  if (isBytes(source)) return WebAssembly.compile(source);
  const answer = source instanceof Response ? source : await fetch(source);
  if (!answer.ok) throw new Error(`${answer.status} ${answer.statusText}`);
  return WebAssembly.compile(await answer.arrayBuffer());
}

const rounded = (size) => Math.ceil(size / 16) * 16;

// Those that no transfer has. The browser calls one sooner that it has called before.
const idle = [];

/** One instance of the module, for one transfer at a time, with room behind its own memory for what the transfer needs. */
export class Engine {
  #first;
  #next;
  // Where the next piece for a stream stands.
  #room = new ArrayBuffer(0);
  #used = 0;

  constructor(instance) {
    // an object as others are: a call of it is found sooner than one of the exports
    this.calls = { ...instance.exports };
    this.#first = this.#next = rounded(Number(this.calls.__heap_base.value));
  }

  static async start() {
    const module = await load();
    return idle.pop() ?? new Engine(await WebAssembly.instantiate(module, {}));
  }

  /** Gives it to the next transfer, behind one that ended well. */
  end() {
    this.#next = this.#first;
    idle.push(this);
  }

  /** Room for so many bytes. All of it is taken before the transfer begins. */
  take(size) {
    const { memory } = this.calls;
    const at = this.#next;
    this.#next += rounded(size);
    const pages = Math.ceil((this.#next - memory.buffer.byteLength) / PAGE);
    if (pages > 0) memory.grow(pages);
    this.bytes = new Uint8Array(memory.buffer);
    this.view = new DataView(memory.buffer);
    return at;
  }

  number(at) {
    return this.view.getUint32(at, true);
  }

  /** A number of 64 bits, as near as a Number comes. */
  long(at) {
    return this.number(at) + this.number(at + 4) * 2 ** 32;
  }

  /** A copy with a buffer of its own: for who may keep it, or hand it on. */
  copy(at, size) {
    return this.bytes.slice(at, at + size);
  }

  /** A copy for a stream, which may keep it. Many have one buffer: one for each would cost more
   *  than all else of a block. A stream that takes the buffer away leaves no room in it. */
  piece(at, size) {
    if (this.#room.byteLength < this.#used + size) {
      this.#room = new ArrayBuffer(PIECES);
      this.#used = 0;
    }
    const piece = new Uint8Array(this.#room, this.#used, size);
    piece.set(this.bytes.subarray(at, at + size));
    this.#used += size;
    return piece;
  }
}
