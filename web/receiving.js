/* The receiving end over a line. */

import { ASKED, FAULTS, LAYOUT, RECEIVED, WAIT } from "./codes.js";
import { drive } from "./driving.js";
import { MESSAGES, YmodemError } from "./errors.js";
import { DELIVERY } from "./line.js";
import { Log } from "./log.js";
import { TimedLine } from "./timed.js";

// A block 0 with a body of 128 bytes.
const SHORT_FRAME = 133;

/** Collects a file in memory; the browser may move parts of it to the disk. */
class Collected {
  #pieces = [];
  #parts = [];
  #size = 0;

  constructor(about) {
    this.about = about;
  }

  write(bytes) {
    this.#pieces.push(bytes);
    this.#size += bytes.length;
    if (this.#size >= 1 << 20) this.#fold();
  }

  #fold() {
    this.#parts.push(new Blob(this.#pieces));
    this.#pieces = [];
    this.#size = 0;
  }

  close() {
    this.#fold();
    const { name, time } = this.about;
    // a file of another type may get another name where it is saved
    const type = "application/octet-stream";
    this.about.file = new File(this.#parts, name, time === undefined ? { type } : { type, lastModified: time * 1000 });
  }
}

/** Whether this is a promise: a file that takes bytes at once is not waited for. */
const isLater = (it) => typeof it?.then === "function";

export class Receiving {
  files = [];
  #engine;
  #calls;
  #line;
  #port;
  #options;
  #log;
  // Where in the engine's memory stand the receiver, what it asks, and what it answers.
  #receiver;
  #ask;
  #reply;
  #about = null;
  #cause;
  #sink = null;
  #answered = false;
  // The first question goes out after the shorter wait: somebody is watching.
  #hasAsked = false;
  // Bytes of the delivery under way.
  #came = 0;
  // The length and the check of the block 0 of the file under way.
  #opening = "";
  #isOtherFile = false;

  constructor(engine, line, options) {
    this.#engine = engine;
    this.#line = line;
    this.#port = new TimedLine(engine, line, true);
    this.#options = options;
    this.#receiver = engine.take(LAYOUT.ym_receiver.size);
    this.#ask = engine.take(LAYOUT.ym_ask.size);
    this.#reply = engine.take(2);
    this.#log = new Log(engine, line.onFrame);
    this.#calls = engine.calls;
    this.#calls.ym_receiver_init(this.#receiver, 0);
  }

  get #state() {
    return RECEIVED[this.#of("state")];
  }

  #of(field) {
    return this.#engine.number(this.#receiver + LAYOUT.ym_receiver[field]);
  }

  #asked(field) {
    return this.#engine.number(this.#ask + LAYOUT.ym_ask[field]);
  }

  #askedLong(field) {
    return this.#engine.long(this.#ask + LAYOUT.ym_ask[field]);
  }

  #held() {
    const at = this.#receiver + LAYOUT.ym_receiver.held;
    return this.#engine.bytes.subarray(at, at + this.#of("len"));
  }

  #wants() {
    return this.#calls.ym_receiver_wants(this.#receiver) !== 0;
  }

  #feed(count) {
    const { heard } = this.#port;
    let fed = 0;
    let took;
    do {
      took = this.#calls.ym_receiver_feed(this.#receiver, heard + fed, count - fed);
      fed += took;
    } while (took > 0 && fed < count);
  }

  #hear() {
    this.#calls.ym_receiver_hear(this.#receiver, this.#ask);
  }

  get isRunning() {
    return this.#state === "running";
  }

  get wait() {
    return this.#came === 0 && this.#hasAsked ? WAIT.first : WAIT.more;
  }

  get most() {
    return DELIVERY - this.#came;
  }

  /** Takes so many bytes, and tells whether they end a delivery: with a frame, since the line is
   *  quiet, or with 2048 bytes. What is left of the last piece is dropped. */
  hears(count) {
    this.#hasAsked = true;
    if (count > 0) {
      this.#came += count;
      this.#feed(count);
      if (!this.#wants()) {
        this.#hear();
        if (!this.#asked("bad")) return true;
      }
      if (this.#came < DELIVERY) return false;
    }
    this.#hear();
    return true;
  }

  /** Does what a delivery asks, and answers it: a promise of that, where it takes its time. */
  replies() {
    this.#came = 0;
    if (this.#line.onFrame) this.#tell();
    this.#open();
    const done = this.#isOtherFile ? false : this.#act();
    return isLater(done) ? done.then(this.#onDone) : this.#onDone(done);
  }

  #onDone = (done) => {
    const written = this.#answer(done);
    const settles = this.#line.isStopped && this.#state === "host-failed";
    return settles ? Promise.resolve(written).then(() => this.#line.settle()) : written;
  };

  async run() {
    const fault = await drive(this, this.#port).catch((it) => it);
    // behind the end block all files are kept, also where the line does not take the last ACK
    if (this.#state !== "finished") throw fault ?? this.#failed();
  }

  /** What came behind the transfer. */
  get rest() {
    return this.#state === "cancelled" ? this.#port.behind(false) : new Uint8Array();
  }

  #tell() {
    const length = this.#of("len");
    if (length === 0) this.#log.quiet();
    else this.#log.frame(false, this.#receiver + LAYOUT.ym_receiver.held, length);
  }

  /** Where only block 0 can come again, one with other bytes is out of step: another file began. */
  #open() {
    if (this.#asked("kind") === ASKED.begin) this.#opening = this.#block0();
    else if (this.#isOpening()) this.#isOtherFile = this.#block0() !== this.#opening;
  }

  #isOpening() {
    if (this.#asked("bad") || !this.#of("in_file")) return false;
    const isNew = this.#engine.long(this.#receiver + LAYOUT.ym_receiver.blocks) === 0;
    return isNew && this.#of("len") >= SHORT_FRAME && this.#held()[1] === 0;
  }

  /** What tells a block 0 from another one: its length and its check. */
  #block0() {
    const held = this.#held();
    return `${held.length} ${held.subarray(-2)}`;
  }

  /** Does what is asked, and answers whether it could: later, where that takes its time. */
  #act() {
    if (this.#line.isStopped) return false;
    try {
      const done = this.#doAsked();
      return isLater(done) ? Promise.resolve(done).then(() => true, this.#couldNot) : true;
    } catch (fault) {
      return this.#couldNot(fault);
    }
  }

  #couldNot = (fault) => {
    this.#cause = fault;
    return false;
  };

  #doAsked() {
    const kind = this.#asked("kind");
    if (!this.#asked("bad")) this.#answered = true;
    if (kind === ASKED.begin) return this.#begin(this.#askedBytes());
    if (kind === ASKED.add) return this.#sink.write(this.#askedBytes());
    return kind === ASKED.commit ? this.#commit() : null;
  }

  #askedBytes() {
    return this.#engine.copy(this.#receiver + LAYOUT.ym_receiver.held + this.#asked("at"), this.#askedLong("count"));
  }

  async #begin(name) {
    const stamp = this.#asked("stamp");
    // a mark at its front is part of a name: without it another one would be left than was checked
    const text = new TextDecoder("utf-8", { ignoreBOM: true }).decode(name);
    this.#about = { name: text, length: this.#askedLong("length") };
    if (stamp > 0) this.#about.time = this.#askedLong("time");
    if (stamp > 1) this.#about.mode = this.#asked("mode");
    this.#sink = (await this.#options.onFile?.(this.#about)) ?? new Collected(this.#about);
  }

  async #commit() {
    await this.#sink.close();
    this.#sink = null;
    this.files.push(this.#about);
    this.#progress(this.#about.length);
  }

  /** Answers what came: a promise of that, where there is something to say. */
  #answer(done) {
    const length = this.#calls.ym_receiver_answer(this.#receiver, done ? 1 : 0, this.#reply, 2);
    if (this.#of("in_file")) this.#progress(this.#engine.long(this.#receiver + LAYOUT.ym_receiver.taken));
    if (length === 0) return null;
    if (this.#line.onFrame) this.#log.reply(true, this.#engine.copy(this.#reply, length));
    return this.#port.write(this.#reply, length);
  }

  #progress(bytes) {
    this.#line.onProgress?.({ file: this.#about, files: this.files.length, bytes, length: this.#about.length });
  }

  #failed() {
    const why = this.#isOtherFile ? "out-of-step" : "aborted";
    const isOurs = this.#isOtherFile || this.#line.isStopped;
    const state = isOurs && this.#state === "host-failed" ? why : this.#state;
    const fault = FAULTS[this.#of("fault")] ?? "";
    return new YmodemError(state, MESSAGES[state] ?? state, { fault, cause: this.#cause, answered: this.#answered });
  }

  /** Lets go of a file that is not whole. */
  async abandon(fault) {
    try {
      await this.#sink?.abort?.(fault);
    } catch {
      // the file is lost already
    }
  }
}
