/* The loop of both ends: one delivery after another, and what is said to it. It is the only place
   where a transfer waits for the line. */

import { GOES_ON } from "./timed.js";

/** Runs an end to its end, and promises that. It says by `wait` and `most` which wait it begins,
 *  and for how many bytes; `hears` takes them, and tells whether a delivery is over; `replies` is a
 *  promise where that takes its time. Where the loop has to wait it is left, and the line calls it
 *  again: a promise for each block would cost more than all that is done with it here. */
export function drive(end, port) {
  return new Promise((done, fails) => {
    let count = 0;
    const goOn = () => {
      try {
        while (end.isRunning) {
          count = count === GOES_ON ? port.take(end.most) : port.begin(end.wait);
          if (count === GOES_ON) {
            if (port.waits(goOn)) return;
          } else if (end.hears(count)) {
            const later = end.replies();
            if (later) return later.then(goOn, fails);
          }
        }
        done(port.written());
      } catch (fault) {
        fails(fault);
      }
    };
    goOn();
  });
}
