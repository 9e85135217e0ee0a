/* What the line said, in words for a log or a chart. */

import { FRONT, LAYOUT } from "./codes.js";

const REPLIES = { 6: "ACK", 21: "NAK", 67: "C", 24: "CAN", 4: "EOT" };

export class Log {
  #engine;
  #at;
  #tell;

  constructor(engine, tell) {
    this.#engine = engine;
    this.#at = engine.take(LAYOUT.ym_front.size);
    this.#tell = tell;
  }

  /** A frame, or what came in its place: so many bytes of the engine's memory. */
  frame(isOurs, at, length) {
    if (this.#tell) this.#tell({ isOurs, length, ...this.#front(at, length) });
  }

  /** A reply, or what came in its place. */
  reply(isOurs, bytes) {
    if (!this.#tell) return;
    const isPlain = bytes.length <= 4 && bytes.every((byte) => byte in REPLIES);
    this.#tell({ isOurs, length: bytes.length, kind: isPlain ? "reply" : "noise", text: isPlain ? Array.from(bytes, (byte) => REPLIES[byte]).join(" ") : "" });
  }

  /** Nothing came. */
  quiet() {
    this.#tell?.({ isOurs: false, length: 0, kind: "quiet", text: "" });
  }

  #front(at, length) {
    const { calls, view } = this.#engine;
    calls.ym_frame_read(at, length, this.#at);
    const kind = view.getUint32(this.#at + LAYOUT.ym_front.kind, true);
    const number = view.getUint32(this.#at + LAYOUT.ym_front.number, true);
    if (kind === FRONT.block) return { kind: "block", number, text: `block ${number}` };
    if (kind === FRONT.eot) return { kind: "eot", text: "end of file" };
    if (kind === FRONT.cancel) return { kind: "cancel", text: "cancel" };
    return { kind: "noise", text: "" };
  }
}
