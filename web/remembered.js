/* What this page remembers in its browser: how the device was reached, and where. */

const KEY = "ymodem";

/** What was remembered: `way`, `speed`, `address`, and `port`, as `nameOf` names it. */
export function remembered() {
  try {
    return JSON.parse(localStorage.getItem(KEY)) ?? {};
  } catch {
    return {};
  }
}

/** Remembers these, too. */
export function remember(more) {
  try {
    localStorage.setItem(KEY, JSON.stringify({ ...remembered(), ...more }));
  } catch {
    // the browser keeps nothing for this page, so it is asked again the next time
  }
}
