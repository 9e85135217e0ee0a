/* The numbers of ymodem.h. */

/** How a receiver stands. */
export const RECEIVED = ["running", "finished", "too-many-errors", "cancelled", "out-of-step", "too-many-files", "host-failed", "bad-header"];

/** How a sender stands. */
export const SENT = ["running", "finished", "no-reply", "cancelled", "source-failed"];

/** Why a block 0 or a header is refused. */
export const FAULTS = ["", "name-empty", "name-long", "name-unsafe", "no-length", "length-large"];

/** What a receiver asks, what a sender has to fill and to send, and what stands at the front of some bytes. */
export const ASKED = { begin: 1, add: 2, commit: 3 };
export const FILL = { header: 1, block: 2 };
export const OUT = { frame: 1, cancel: 2 };
export const FRONT = { block: 1, eot: 2, cancel: 3 };

/** Where a sender stands once all files are sent. */
export const PLACE_END = 3;

/** What a read waits for, and what one that waited in vain comes to. */
export const WAIT = { first: 0, more: 1 };
export const VAIN = { again: 0, ack: 1, quiet: 2 };

/** What ends a transfer, either way. */
export const CANCEL = Uint8Array.of(0x18, 0x18);

// Where the fields of the structs of ymodem.h stand; the checks compare them with what a C compiler
// says.
export const LAYOUT = {
  ym_receiver: { length: 0, taken: 8, blocks: 16, files: 24, state: 28, fault: 32, in_file: 36, len: 116, held: 120, size: 1152 },
  ym_ask: { length: 0, time: 8, count: 16, kind: 24, at: 28, stamp: 32, mode: 36, bad: 40, size: 48 },
  ym_sender: { number: 0, file: 8, len: 12, place: 16, state: 28, frame: 36, size: 1072 },
  ym_fill: { number: 0, kind: 8, file: 12, size: 16 },
  ym_line: { size: 192 },
  ym_clearing: { size: 32 },
  ym_front: { kind: 0, number: 4, width: 8, length: 16, size: 24 },
};
