/* The streams of a port, as a transfer reads and writes them: piece by piece, within a time. */

import { Alarm, moment } from "./alarm.js";
import { YmodemError } from "./errors.js";

/** As many bytes as one delivery has at most. */
export const DELIVERY = 2048;

/** What a read answers where nothing came. */
export const QUIET = null;

// In milliseconds: for how long a stopped transfer goes on reading, for how long a write may take,
// and for how long bytes may come without a pause and without a write.
const STOPS_WITHIN = 1000;
const WRITES_WITHIN = 10000;
const DRIPS_FOR = 100000;
// An alarm that rings so late was held up, and so may be what came meanwhile. It is given so long.
const LATE = 100;

const failed = (how, cause) =>
  new YmodemError("device", `the line failed while it was ${how}`, { cause });

/** The streams of a port, read piece by piece within a time. */
export class Line {
  #reader;
  #writer;
  #isComing = false;
  #came = [];
  #wake = null;
  #pieces = 0;
  #since = 0;
  #fault = null;
  #stopAt = Infinity;
  #alarm = new Alarm();
  // A delivery that is under way may come to its end: an end may drop what it is told before it has
  // answered.
  #onAbort = () => {
    this.isStopped = true;
    this.#stopAt = moment() + STOPS_WITHIN;
    this.#goOn();
  };
  // How long the read under way waits.
  #until = 0;
  #isHeldUp = false;
  // Ends the read under way, where there is one that may end, or has it wait on. What calls it is
  // made once for all reads.
  #goOn = () => {
    const wake = this.#wake;
    if (wake === null || this.#goesOn()) return;
    this.#wake = null;
    wake();
  };
  #onRead = ({ done, value }) => {
    this.#isComing = false;
    if (done) this.#fault = new YmodemError("closed", "the line was closed");
    else if (value.length) this.#came.push(value);
    this.#goOn();
  };
  #onFault = (cause) => {
    this.#isComing = false;
    this.#fault = failed("read", cause);
    this.#goOn();
  };
  // The write that began last, and what is heard of one that is not waited for.
  #writing = null;
  #onUnwritten = (cause) => {
    this.#fault ??= failed("written", cause);
    this.#goOn();
  };

  /** With what was heard before, and belongs to the transfer. */
  constructor(port, options) {
    const { signal, heard } = options;
    // what is of another kind fails here, while the streams are free
    if (heard?.length) this.#came.push(heard.subarray());
    signal?.addEventListener("abort", this.#onAbort);
    /** That a function of the page threw: the transfer is stopped then. */
    this.thrown = null;
    const guarded = (name) => options[name] && ((it) => {
      try {
        options[name](it);
      } catch (cause) {
        this.thrown ??= new YmodemError("page-failed", `${name} threw`, { cause });
        this.#onAbort();
      }
    });
    this.onFrame = guarded("onFrame");
    this.onProgress = guarded("onProgress");
    this.isStopped = false;
    /** Why nothing comes any more, once a read found that it is so. */
    this.closed = null;
    try {
      this.#reader = port.readable.getReader();
      this.#writer = port.writable.getWriter();
    } catch (cause) {
      this.#reader?.releaseLock();
      throw failed("opened", cause);
    }
    this.signal = signal;
    if (signal?.aborted) this.#onAbort();
  }

  /** Whether something is there that was not taken yet. */
  get isThere() {
    return this.#came.length > 0;
  }

  /** Whether a read has to wait: until something comes, these milliseconds from now or those of a
   *  stop are over, or the line is closed. Then `wake` is called. */
  waits(now, millis, wake) {
    this.#until = now + Math.max(millis, 1);
    this.#isHeldUp = false;
    this.#wake = this.#goesOn(now) ? wake : null;
    return this.#wake !== null;
  }

  #goesOn(now) {
    if (this.isThere) return false;
    this.closed = this.#fault;
    if (this.closed || this.#isOver(now ?? moment())) return false;
    if (!this.#isComing) this.#reader.read().then(this.#onRead, this.#onFault);
    this.#isComing = true;
    this.#alarm.set(Math.min(this.#until, this.#stopAt), this.#goOn);
    return true;
  }

  #isOver(now) {
    const end = Math.min(this.#until, this.#stopAt);
    if (now < end) return false;
    if (this.#isHeldUp || now < end + LATE) return true;
    this.#isHeldUp = true;
    this.#until = now + LATE;
    return false;
  }

  #drips() {
    if (this.#pieces === 0) return false;
    if (this.#pieces === 1) this.#since = moment();
    return moment() - this.#since > DRIPS_FOR;
  }

  /** What came, at most so many bytes; or QUIET, where nothing did, or where bytes never paused. */
  piece(most) {
    if (!this.isThere || this.#drips()) {
      this.#pieces = 0;
      return QUIET;
    }
    this.#pieces++;
    const first = this.#came[0];
    if (first.length <= most) return this.#came.shift();
    this.#came[0] = first.subarray(most);
    return first.subarray(0, most);
  }

  /** Writes all of it. A line that has room for more is not waited for; for another there is a
   *  promise, as `written` has it. */
  write(now, bytes) {
    this.#pieces = 0;
    this.#writing = this.#writer.write(bytes);
    if (!(this.#writer.desiredSize > 0)) return this.written(now);
    this.#writing.then(undefined, this.#onUnwritten);
    return null;
  }

  /** Waits until the line has taken what was written last, or fails where it takes nothing for
   *  long from now on. */
  written(now) {
    if (this.#writing === null) return null;
    return new Promise((resolve, reject) => {
      const fails = (cause) => reject(failed("written", cause));
      this.#alarm.set(now + WRITES_WITHIN, () => fails(new Error("the line takes no bytes")));
      this.#writing.then(resolve, fails);
    });
  }

  /** After a receiver's CAN CAN: what the sender had under way is dropped, so that it does not
   *  stand in a terminal. */
  async settle() {
    this.#stopAt = moment() + 5 * STOPS_WITHIN;
    for (let reads = 0; reads < 64; reads++) {
      await new Promise((wake) => this.waits(moment(), STOPS_WITHIN / 2, wake) || wake());
      if (this.piece(DELIVERY) === QUIET) break;
    }
  }

  /** Lets the streams go, and answers what came and was not read, behind what was read and belongs
   *  to whoever has the line next. */
  async release(read) {
    this.signal?.removeEventListener("abort", this.#onAbort);
    this.#alarm.close();
    this.#reader.releaseLock();
    this.#writer.releaseLock();
    // what the stream has promised already comes first
    await null;
    return joined([read, ...this.#came]);
  }
}

/** Pieces as one. */
export function joined(pieces) {
  const all = new Uint8Array(pieces.reduce((sum, piece) => sum + piece.length, 0));
  let at = 0;
  for (const piece of pieces) {
    all.set(piece, at);
    at += piece.length;
  }
  return all;
}
