/* How far a transfer is, how fast it goes, and how long it will take. */

import { moment } from "./alarm.js";
import { count, duration, size } from "./words.js";

// The rate is that of the last seconds in which something went.
const SPAN = 4;
// Milliseconds: samples are so far apart, and a rate is known after so long.
const APART = 100;
const KNOWN_AFTER = 300;
// Where nothing went for so many milliseconds, and for longer than lately, the line stands still.
const STILL = 3000;

export class Meter {
  #samples = [];
  #before = 0;
  #last = null;

  /** With the bytes of the whole batch, where they are known. */
  constructor(total) {
    this.total = total;
    this.began = null;
  }

  /** Takes what a transfer tells. */
  take(progress) {
    if (this.#last && progress.file !== this.#last.file) this.#before += this.#last.bytes;
    this.#last = progress;
    const [done, time] = [this.#before + progress.bytes, moment()];
    this.began ??= time;
    if (this.#samples.length === 0 || done !== this.done) this.#sample({ done, time });
  }

  #sample(it) {
    const samples = this.#samples;
    const before = samples.at(-2);
    if (before && it.time - before.time < APART) samples.pop();
    samples.push(it);
    while (samples.length > 2 && it.time - samples[1].time > SPAN * 1000) samples.shift();
  }

  get seconds() {
    return this.began === null ? 0 : (moment() - this.began) / 1000;
  }

  /** Bytes that went, and of how many. */
  get done() {
    return this.#samples.at(-1)?.done ?? 0;
  }

  get whole() {
    return this.total ?? this.#before + (this.#last?.length ?? 0);
  }

  get share() {
    return this.whole === 0 ? 0 : Math.min(1, this.done / this.whole);
  }

  /** Milliseconds since something went. */
  get #idle() {
    return moment() - (this.#samples.at(-1)?.time ?? Infinity);
  }

  /** Bytes a second, when something went last; 0 where that is not known. */
  rate() {
    const [first, last] = [this.#samples[0], this.#samples.at(-1)];
    if (!last || last.done === first.done) return 0;
    const span = last.time - first.time;
    if (span < KNOWN_AFTER && this.#idle < KNOWN_AFTER) return 0;
    return (last.done - first.done) / (Math.max(span, 1) / 1000);
  }

  /** The seconds for which the line stands still, where it does: longer than it took lately from
   *  one piece to the next. */
  get #still() {
    const [before, last] = this.#samples.slice(-2);
    const usual = last ? 2 * (last.time - before.time) : 0;
    return this.#idle > Math.max(STILL, usual) ? this.#idle / 1000 : 0;
  }

  /** The line below the bar. */
  text() {
    const rate = this.rate();
    const still = this.#still;
    const parts = [`${size(this.done)} of ${size(this.whole)}`];
    if (rate > 0) parts.push(`${size(rate)}/s`, `${duration((this.whole - this.done) / rate)} left`);
    if (still > 0) parts.push(`standing still for ${duration(still)}`);
    return parts.join(" · ");
  }

  /** The line at the end. */
  summary(files) {
    const rate = this.done / Math.max(0.001, this.seconds);
    return `${count(files, "file")}, ${size(this.done)} in ${duration(this.seconds)} (${size(Math.round(rate))}/s)`;
  }

  get file() {
    return this.#last?.file ?? null;
  }

  get files() {
    return this.#last?.files ?? 0;
  }
}
