/* A clock, and one that rings where something takes too long. */

// The browser looks this name up by a call, each time that it stands somewhere.
const browser = performance;

/** The moment, in milliseconds. */
export const moment = () => browser.now();

/**
 * One timer for many waits, one after another. Nearly all of them end before their time, and a
 * timer of its own for each would cost more than what is waited for: so a timer that runs is left
 * alone, and looks at its end whether it is time.
 */
export class Alarm {
  #timer = null;
  #endsAt = Infinity;
  #due = Infinity;
  #ring = null;

  /** Rings at this time, and no more at one that was set before. */
  set(due, ring) {
    this.#due = due;
    this.#ring = ring;
    if (this.#endsAt > due) this.#start();
  }

  close() {
    clearTimeout(this.#timer);
  }

  #start() {
    clearTimeout(this.#timer);
    this.#endsAt = this.#due;
    this.#timer = setTimeout(() => this.#end(), this.#due - moment());
  }

  #end() {
    this.#endsAt = Infinity;
    if (this.#due > moment()) this.#start();
    else this.#ring();
  }
}
