/* One end of a line, by the rule of time of the module: how long it waits, what it hears, and when
   it lets its line clear. This is the driver of docs/timing.md over the calls ym_line_*; nothing of
   the rule itself stands here. */

import { moment } from "./alarm.js";
import { CANCEL, LAYOUT, VAIN, WAIT } from "./codes.js";
import { DELIVERY, QUIET, joined } from "./line.js";

const ACK = Uint8Array.of(0x06);

// Reads that one wait makes at most, and one line that is let clear.
const MOST_READS = 65536;
const FRAME = 1029;
// Of a byte that came two may be heard.
const ROOM = 2 * DELIVERY;
/** What a wait answers that is not over. */
export const GOES_ON = -1;

// Pieces that are kept for whoever has the line next.
const MOST_KEPT = 4096;

/** A line as a receiver or a sender of an engine has it. What is read and what is written stands in
 *  the engine's memory. */
export class TimedLine {
  #engine;
  #line;
  #isSender;
  #calls;
  #state;
  #clearing;
  #came;
  #written;
  #writtenLength = 0;
  // The moment of the last look, whole milliseconds of it, and what the rule makes of them.
  #looked = 0;
  #millis = 0;
  #now = 0n;
  // The wait under way: which it is, when it began, and how many reads it made.
  #wait = 0;
  #start = 0n;
  #reads = 0;
  // Until when the last read waited.
  #until = 0n;
  #mayCancel = false;
  // What came since the last write, as it came.
  #since = [];

  constructor(engine, line, isReceiver) {
    this.#engine = engine;
    this.#line = line;
    this.#isSender = !isReceiver;
    this.#calls = engine.calls;
    this.#state = engine.take(LAYOUT.ym_line.size);
    this.#clearing = engine.take(LAYOUT.ym_clearing.size);
    this.#came = engine.take(DELIVERY);
    this.#written = engine.take(FRAME);
    /** Where that stands which was heard last. */
    this.heard = engine.take(2 * DELIVERY);
    this.cancel = engine.take(CANCEL.length);
    engine.bytes.set(CANCEL, this.cancel);
    this.#calls.ym_line_init(this.#state, isReceiver ? 1 : 0);
    this.#look();
  }

  /** Takes the moment. A block costs three looks: where a wait begins, where bytes came, and where
   *  some are written. */
  #look() {
    const before = this.#clock();
    // the rule knows of most milliseconds already
    if (this.#millis === before) return;
    this.#now = this.#calls.ym_line_now(this.#state, BigInt(this.#millis));
  }

  /** Looks at the clock, and answers what it told before. */
  #clock() {
    const before = this.#millis;
    this.#looked = moment();
    this.#millis = Math.floor(this.#looked);
    return before;
  }

  /** Begins a wait. It answers how many bytes are heard at once, or GOES_ON. */
  begin(wait) {
    if (this.#hasCancel()) return this.#hears(CANCEL);
    if (this.#line.closed) throw this.#line.closed;
    if (wait === WAIT.first) this.#look();
    this.#wait = wait;
    this.#start = this.#now;
    this.#reads = 0;
    return GOES_ON;
  }

  /** Whether there is nothing to take yet: `wake` is called once there is, or the wait is over. */
  waits(wake) {
    return !this.#line.isThere && this.#waits(this.#end(this.#wait), wake);
  }

  /** Takes what came, at most so many bytes, or that nothing did. It answers how many of them are
   *  heard, which is 0 where the line was quiet, or GOES_ON. */
  take(most) {
    const piece = this.#piece(most);
    const count = piece === QUIET ? 0 : this.#hear(piece);
    if (count > 0 || this.#line.isStopped) return count;
    // where nothing of it is heard, a wait goes on, for as long as one for a reply
    if (piece === QUIET || this.#last() <= this.#now) {
      const vain = this.#calls.ym_line_expired(this.#state, this.#wait, this.#now);
      if (vain === VAIN.ack) return this.#hears(ACK);
      if (this.#line.closed) throw this.#line.closed;
      if (vain === VAIN.quiet) return 0;
    }
    return ++this.#reads < MOST_READS ? GOES_ON : 0;
  }

  /** When the wait is over, as one for a reply, or as one for more, which begins now. */
  #end(wait, line = this.#state) {
    const since = wait === WAIT.first ? this.#start : this.#now;
    return this.#calls.ym_line_until(line, wait, since);
  }

  /** When it is over at the latest, whatever comes that is not heard. For more that is as long as a
   *  reply may take. Of a sender that time has parts: a copy of the line, whose wait for a reply
   *  has run out, tells of all. It stands where nothing is heard. */
  #last() {
    if (this.#wait === WAIT.first) return this.#end(WAIT.first);
    const copy = this.heard;
    this.#engine.bytes.copyWithin(copy, this.#state, this.#state + LAYOUT.ym_line.size);
    while (this.#calls.ym_line_expired(copy, WAIT.first, this.#now) !== VAIN.quiet);
    return this.#end(WAIT.first, copy);
  }

  // It may have come while the line cleared, and at no other time.
  #hasCancel() {
    if (!this.#mayCancel) return false;
    this.#mayCancel = false;
    return this.#calls.ym_line_cancelled(this.#state) !== 0;
  }

  #waits(until, wake) {
    this.#until = until;
    return this.#line.waits(this.#looked, Number(until - this.#now), wake);
  }

  /** What a read ended with, and takes the moment of that. A line that closes or fails is quiet,
   *  and known to be closed. */
  #piece(most) {
    const piece = this.#line.piece(most);
    if (piece !== QUIET) this.#look();
    else if (!this.#line.isStopped && !this.#line.closed) {
      this.#clock();
      this.#now = this.#calls.ym_line_waited(this.#state, this.#until, BigInt(this.#millis));
    }
    return piece;
  }

  #hears(bytes) {
    this.#engine.bytes.set(bytes, this.heard);
    return bytes.length;
  }

  /** How many bytes of what came are heard. A sender hears no reply behind which its peer
   *  cancels. */
  #hear(piece) {
    if (this.#since.length < MOST_KEPT) this.#since.push(piece);
    this.#engine.bytes.set(piece, this.#came);
    const count = this.#calls.ym_line_hear(
      this.#state,
      this.#came,
      piece.length,
      this.#written,
      this.#writtenLength,
      this.#now,
      this.heard,
      ROOM,
    );
    const cancels = this.#isSender && this.#calls.ym_line_cancels(this.heard, count);
    return cancels ? this.#hears(CANCEL) : count;
  }

  /** Writes so many bytes of the engine's memory, behind what has to clear before them. */
  write(at, length) {
    this.#look();
    this.#calls.ym_line_clearing(this.#state, at, length, this.#now, this.#clearing);
    if (this.#isClear()) return this.#put(at, length);
    return this.#clear().then(() => this.#put(at, length));
  }

  #put(at, length) {
    if (this.#line.closed) throw this.#line.closed;
    this.#calls.ym_line_wrote(this.#state, this.#clearing, at, length, this.#now);
    this.#engine.bytes.copyWithin(this.#written, at, at + length);
    this.#writtenLength = length;
    this.#since.length = 0;
    return this.#line.write(this.#looked, this.#engine.piece(at, length));
  }

  /** Waits until the line has taken all that was written. */
  written() {
    return this.#line.written(moment());
  }

  #clearAt() {
    return this.#calls.ym_line_clear_at(this.#state, this.#clearing);
  }

  #isClear() {
    return this.#clearAt() <= this.#now || this.#line.closed !== null || this.#line.isStopped;
  }

  async #clear() {
    this.#mayCancel = true;
    for (let reads = 0; reads < MOST_READS && !this.#isClear(); reads++) {
      await new Promise((wake) => this.#waits(this.#clearAt(), wake) || wake());
      const piece = this.#piece(DELIVERY);
      if (piece !== QUIET) this.#drop(piece);
    }
  }

  #drop(piece) {
    this.#engine.bytes.set(piece, this.#came);
    this.#calls.ym_line_drop(
      this.#state,
      this.#clearing,
      this.#came,
      piece.length,
      this.#written,
      this.#writtenLength,
      this.#now,
    );
  }

  /** Of what came since the last write, what stands behind the first ACK, or the last CAN: it is
   *  for whoever has the line next. */
  behind(isDone) {
    const all = joined(this.#since);
    const at = isDone ? all.indexOf(ACK[0]) : all.lastIndexOf(CANCEL[0]);
    return at < 0 ? all.subarray(all.length) : all.subarray(at + 1);
  }
}
