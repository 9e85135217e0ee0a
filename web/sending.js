/* The sending end over a line. */

import { CANCEL, FAULTS, FILL, LAYOUT, OUT, PLACE_END, SENT, WAIT } from "./codes.js";
import { drive } from "./driving.js";
import { isBytes } from "./engine.js";
import { MESSAGES, YmodemError } from "./errors.js";
import { DELIVERY } from "./line.js";
import { Log } from "./log.js";
import { TimedLine } from "./timed.js";

// Bytes of a file that are read at once.
const WINDOW = 1 << 18;
// Bytes of the line that are: replies are short.
const PIECE = 64;
// C, by which a receiver asks for a file.
const ASKS = 0x43;

/** A file of the batch: its bytes, by windows, of which the next is under way while one is sent. */
export class Source {
  #start = 0;
  #window;
  #ahead = null;
  #blob;
  #longs;
  // Whether it is an empty one that was read, or has nothing to read.
  #isRead;

  constructor(item) {
    const isOwn = item instanceof Blob;
    const { name, data, time, mode } = isOwn ? { name: item.name, data: item } : Object(item);
    const isData = typeof data === "string" || data instanceof Blob || isBytes(data);
    if (!isData || !((time ?? 0) >= 0 && (time ?? 0) < 2 ** 53)) {
      throw new YmodemError("source-failed", `${name}: its data or time cannot be used`);
    }
    // Bytes in memory are one window, and copied: who has them may change them.
    const isHere = data instanceof Uint8Array;
    this.#window = new Uint8Array(isHere ? data : 0);
    this.#blob = isHere ? null : data instanceof Blob ? data : new Blob([data]);
    Object.assign(this, { name, time, mode });
    this.length = this.#blob?.size ?? data.length;
    this.#isRead = this.length > 0 || !(data instanceof Blob);
    // A long block while at least 1024 bytes remain, and then short ones.
    this.#longs = Math.floor(this.length / 1024);
    this.blocks = this.#longs + Math.ceil((this.length % 1024) / 128);
  }

  /** Where a data block stands in the file, and how many bytes it carries. */
  place(number) {
    if (number <= this.#longs) return { start: (number - 1) * 1024, size: 1024 };
    return { start: this.#longs * 1024 + (number - 1 - this.#longs) * 128, size: 128 };
  }

  async #read(start) {
    const part = this.#blob.slice(start, start + WINDOW);
    return new Uint8Array(await part.arrayBuffer());
  }

  /** Whether the bytes of this place, as many as the file has, stand in the window. */
  has({ start, size }) {
    const end = Math.min(start + size, this.length);
    return start >= this.#start && end <= this.#start + this.#window.length;
  }

  /** Moves the window there. Of a file that was cut since it was chosen, some browsers read what is
   *  left, and say nothing. */
  async load(place) {
    const { start } = place;
    this.#window = await (this.#ahead ?? this.#read(start));
    this.#start = start;
    if (!this.has(place)) throw new Error("It became shorter.");
    const next = start + WINDOW;
    this.#ahead = next < this.length ? this.#read(next) : null;
    this.#ahead?.catch(() => {});
  }

  /** Reads an empty file before it is sent as one: it may have bytes by now, or be a folder. It
   *  answers a promise of that, or nothing where there is nothing to read. */
  probe() {
    if (this.#isRead) return null;
    this.#isRead = true;
    return this.#blob.arrayBuffer();
  }

  /** The bytes of this place, which the window has. */
  bytes({ start, size }) {
    return this.#window.subarray(start - this.#start, start - this.#start + size);
  }
}

export class Sending {
  files = [];
  #engine;
  #calls;
  #line;
  #port;
  #sources;
  #log;
  // Where in the engine's memory stand the sender and its batch, and what goes in and out of it.
  #sender;
  #batch;
  #total;
  #filling;
  #heard;
  #body;
  #about = null;
  #cause;
  #answered = false;
  // Bytes of the delivery under way.
  #held = 0;
  #onFault = (cause) => {
    this.#cause = cause;
    this.#fail();
  };

  constructor(engine, line, sources) {
    this.#engine = engine;
    this.#line = line;
    this.#port = new TimedLine(engine, line, false);
    this.#sources = sources;
    this.#sender = engine.take(LAYOUT.ym_sender.size);
    this.#filling = engine.take(LAYOUT.ym_fill.size);
    this.#heard = engine.take(DELIVERY);
    this.#body = engine.take(1024);
    this.#batch = engine.take(8 * sources.length + 8);
    this.#total = sources.length;
    sources.forEach(({ blocks }, at) => {
      engine.view.setBigUint64(this.#batch + 8 * at, BigInt(blocks), true);
    });
    this.#log = new Log(engine, line.onFrame);
    this.#calls = engine.calls;
    this.#begin();
  }

  get #state() {
    return SENT[this.#of("state")];
  }

  #of(field) {
    return this.#engine.number(this.#sender + LAYOUT.ym_sender[field]);
  }

  #isSettled() {
    const [batch, held] = [this.#batch, this.#held];
    return this.#calls.ym_sender_settled(this.#sender, batch, this.#total, this.#heard, held) > 0;
  }

  get isRunning() {
    return this.#state === "running";
  }

  get wait() {
    return this.#held === 0 ? WAIT.first : WAIT.more;
  }

  get most() {
    // a byte of the line may make two
    return Math.min(PIECE, (DELIVERY - this.#held) >> 1);
  }

  /** Takes so many bytes, and tells whether they end a delivery. */
  hears(count) {
    if (count === 0) return true;
    const { heard } = this.#port;
    this.#engine.bytes.copyWithin(this.#heard + this.#held, heard, heard + count);
    this.#held += count;
    return this.#isSettled() || this.#held + 2 > DELIVERY;
  }

  /** Fills what a delivery asks for, and sends it: a promise of that, where it takes its time. */
  replies() {
    const held = this.#held;
    this.#held = 0;
    this.#tell(held);
    this.#hear(held);
    const filled = this.#fill();
    return filled ? filled.then(this.#onFilled) : this.#onFilled();
  }

  #onFilled = () => {
    if (this.#line.isStopped) this.#fail();
    return this.#out();
  };

  async run() {
    this.#check();
    await drive(this, this.#port);
    if (this.#state !== "finished") throw this.#failed();
  }

  /** What came behind the transfer. */
  get rest() {
    return this.#port.behind(this.#state === "finished");
  }

  /** Refuses a name that no header takes, before anything is written: each file is asked for once
   *  as the first one, and then the sender begins anew. */
  #check() {
    for (const source of this.#sources) {
      this.#engine.bytes[this.#heard] = ASKS;
      this.#hear(1);
      this.#put(source);
      this.#begin();
    }
  }

  #begin() {
    this.#calls.ym_sender_init(this.#sender, this.#batch, this.#total);
  }

  #tell(held) {
    if (held > 0) this.#answered = true;
    if (!this.#line.onFrame) return;
    if (held === 0) this.#log.quiet();
    else this.#log.reply(false, this.#engine.copy(this.#heard, held));
  }

  #hear(held) {
    this.#calls.ym_sender_hear(
      this.#sender,
      this.#batch,
      this.#total,
      this.#heard,
      held,
      this.#filling,
    );
    this.#count();
  }

  /** Fills what is asked for: a promise of that, where a block has to be read first. */
  #fill() {
    const { ym_fill } = LAYOUT;
    const kind = this.#engine.number(this.#filling + ym_fill.kind);
    const source = this.#sources[this.#engine.number(this.#filling + ym_fill.file)];
    try {
      if (kind === FILL.header) return this.#header(source);
      if (kind !== FILL.block) return null;
      const place = source.place(this.#engine.long(this.#filling + ym_fill.number));
      if (source.has(place)) return this.#block(source, place);
      return source.load(place).then(() => this.#block(source, place)).catch(this.#onFault);
    } catch (fault) {
      return this.#onFault(fault);
    }
  }

  #fail() {
    if (this.#state !== "running") return;
    this.#calls.ym_sender_failed(this.#sender, this.#batch, this.#total);
  }

  /** Counts the files that are done: those before the one at which the sender stands. */
  #count() {
    const done = this.#of("place") === PLACE_END ? this.#sources.length : this.#of("file");
    while (this.files.length < done) {
      this.files.push(this.#about);
      this.#progress(this.#about.length);
    }
  }

  #header(source) {
    this.#about = { name: source.name, length: source.length };
    this.#progress(0);
    const probed = source.probe();
    if (!probed) return this.#put(source);
    return probed.then(() => this.#put(source)).catch(this.#onFault);
  }

  /** Fills the header that is asked for. */
  #put(source) {
    const name = new TextEncoder().encode(source.name);
    const room = name.subarray(0, DELIVERY);
    this.#engine.bytes.set(room, this.#heard);
    const stamp = source.time === undefined ? 0 : source.mode === undefined ? 1 : 2;
    const fault = this.#calls.ym_sender_header(
      this.#sender,
      this.#heard,
      room.length,
      BigInt(source.length),
      stamp,
      BigInt(Math.floor(source.time ?? 0)),
      source.mode ?? 0,
    );
    if (fault) throw new YmodemError("bad-header", `${source.name}: ${FAULTS[fault]}`, { fault: FAULTS[fault], cause: { file: source.name } });
  }

  #block(source, place) {
    const { bytes } = this.#engine;
    const body = source.bytes(place);
    bytes.set(body, this.#body);
    bytes.fill(0x1a, this.#body + body.length, this.#body + place.size);
    this.#calls.ym_sender_block(this.#sender, this.#body, place.size);
    this.#progress(place.start);
  }

  /** Writes what is to be sent: a promise of that. */
  #out() {
    const out = this.#calls.ym_sender_out(this.#sender, this.#batch, this.#total);
    if (out === OUT.frame) {
      const [at, length] = [this.#sender + LAYOUT.ym_sender.frame, this.#of("len")];
      this.#log.frame(true, at, length);
      return this.#port.write(at, length);
    }
    if (out !== OUT.cancel) return null;
    this.#log.reply(true, CANCEL);
    return this.#port.write(this.#port.cancel, CANCEL.length);
  }

  #progress(bytes) {
    this.#line.onProgress?.({ file: this.#about, files: this.files.length, bytes, length: this.#about.length });
  }

  #failed() {
    const isOurs = this.#line.isStopped && this.#state === "source-failed";
    const state = isOurs ? "aborted" : this.#state;
    return new YmodemError(state, MESSAGES[state] ?? state, { cause: this.#cause, answered: this.#answered });
  }
}
