/* The line's text, before and after a transfer; and what is typed at it. */

import { moment } from "./alarm.js";

const MOST_LINES = 600;
// A line goes on in the next one behind so many signs: a device may never end one.
const MOST_COLUMNS = 1000;
const NAMED = { Enter: "\r", Backspace: "\x7f", Escape: "\x1b", Delete: "\x1b[3~", ArrowUp: "\x1b[A", ArrowDown: "\x1b[B", ArrowRight: "\x1b[C", ArrowLeft: "\x1b[D", Home: "\x1b[H", End: "\x1b[F" };

/** Text as a plain terminal shows it: carriage returns and backspaces move, and escape sequences are passed over. */
class Screen {
  lines = [""];
  #column = 0;
  #escape = "";

  /** Takes more text. */
  write(text) {
    for (const sign of text) {
      if (this.#escape) this.#inEscape(sign);
      else this.#sign(sign);
    }
    if (this.lines.length > MOST_LINES) this.lines.splice(0, this.lines.length - MOST_LINES);
  }

  #inEscape(sign) {
    this.#escape += sign;
    if (this.#escape.length === 2 && sign === "[") return;
    if (this.#escape.length === 2 || (sign >= "@" && sign <= "~") || this.#escape.length > 30) {
      if (this.#escape === "\x1b[K") this.#put(this.#line().slice(0, this.#column));
      this.#escape = "";
    }
  }

  #line() {
    return this.lines[this.lines.length - 1];
  }

  #put(line) {
    this.lines[this.lines.length - 1] = line;
  }

  #sign(sign) {
    if (sign === "\x1b") this.#escape = sign;
    else if (sign === "\n") {
      this.lines.push("");
      this.#column = 0;
    } else if (sign === "\r") this.#column = 0;
    else if (sign === "\b") this.#column = Math.max(0, this.#column - 1);
    else if (sign === "\t") this.#text(" ".repeat(8 - (this.#column % 8)));
    else if (sign >= " ") this.#text(sign);
  }

  #text(text) {
    if (this.#column >= MOST_COLUMNS) this.#sign("\n");
    const line = this.#line().padEnd(this.#column);
    this.#put(line.slice(0, this.#column) + text + line.slice(this.#column + text.length));
    this.#column += text.length;
  }
}

/** The terminal of the page: shows what a port says while no transfer has it. */
export class Terminal {
  #screen = new Screen();
  #decoder = new TextDecoder("utf-8");
  #port = null;
  #reader = null;
  #reading = null;
  #letGo;
  #isDue = false;
  #typing = Promise.resolve();
  #tail = "";
  #when = 0;
  /** Whether the port said that nothing comes any more. */
  hasEnded = false;

  constructor(box, onEnd) {
    this.box = box;
    this.onEnd = onEnd;
    box.onkeydown = (event) => this.#key(event);
    box.onpaste = (event) => {
      event.preventDefault();
      this.type(event.clipboardData.getData("text").replace(/\r?\n/g, "\r"));
    };
  }

  /** Shows what this port says from now on. */
  attach(port) {
    this.#port = port;
    this.hasEnded = false;
    this.#reader = port.readable.getReader();
    this.#reading = this.#read(this.#reader);
  }

  /** Lets go of the port, so that a transfer can take it. */
  async detach() {
    await this.#typing;
    const reading = this.#reading;
    this.#reader?.releaseLock();
    this.#reader = this.#reading = null;
    await reading;
  }

  /** Lets go of it for good, also where it does not take what was typed. */
  forget() {
    this.giveUp();
    return this.detach();
  }

  /** Does not wait any longer for a port to take what was typed. */
  giveUp() {
    this.#port = null;
    this.#letGo?.();
  }

  async #read(reader) {
    try {
      for (;;) {
        const { done, value } = await reader.read();
        if (done) break;
        this.show(value);
      }
      this.#end();
    } catch (fault) {
      // without its lock it was let go
      if (reader === this.#reader) this.#end(fault);
    }
  }

  #end(fault) {
    this.hasEnded = true;
    this.onEnd(fault);
  }

  /** Shows bytes of the line. */
  show(bytes) {
    const text = this.#decoder.decode(bytes, { stream: true });
    this.#tail = (this.#tail + text).slice(-200);
    this.#when = moment();
    this.print(text);
  }

  print(text) {
    this.#screen.write(text);
    if (this.#isDue) return;
    this.#isDue = true;
    requestAnimationFrame(() => this.#draw());
  }

  /** A line of the page's own. */
  note(text) {
    const gap = this.#screen.lines.at(-1) ? "\n" : "";
    this.#screen.write(`${gap}[${text}]\n`);
    this.print("");
  }

  #draw() {
    this.#isDue = false;
    const isAtEnd = this.box.scrollHeight - this.box.scrollTop - this.box.clientHeight < 40;
    this.box.textContent = this.#screen.lines.join("\n");
    if (isAtEnd) this.box.scrollTop = this.box.scrollHeight;
  }

  /** Whether what came last looks like a receiver's question. */
  get isAsked() {
    return /(^|\W|C)C$/.test(this.#tail);
  }

  /** Whether it asked so within the last milliseconds. */
  asksSince(millis) {
    return this.isAsked && moment() - this.#when < millis;
  }

  /** Forgets what came, so that only what comes from now on is looked at. */
  listen() {
    this.#tail = "";
  }

  /** Types at the line, behind what is being typed already. */
  type(text) {
    const port = this.#port;
    this.#typing = this.#typing.then(() => this.#write(port, text));
    return this.#typing;
  }

  async #write(port, text) {
    if (!this.#reader || port !== this.#port) return;
    const writer = port.writable.getWriter();
    this.isStuck = false;
    try {
      await new Promise((resolve, reject) => {
        this.#letGo = () => resolve((this.isStuck = true));
        writer.write(new TextEncoder().encode(text)).then(resolve, reject);
      });
    } catch (fault) {
      // without its port it was let go
      if (port === this.#port) this.onEnd(fault);
    } finally {
      writer.releaseLock();
      this.#letGo = null;
    }
  }

  // Tab stays the browser's, so that the keyboard is not caught here.
  #key(event) {
    if (event.altKey || event.metaKey || event.isComposing) return;
    let text = NAMED[event.key];
    if (event.ctrlKey) {
      const hasSelection = String(getSelection()) !== "";
      if (event.shiftKey || !/^[a-z[\]\\]$/i.test(event.key) || event.key === "v" || (event.key === "c" && hasSelection)) return;
      text = String.fromCharCode(event.key.toUpperCase().charCodeAt(0) & 31);
    } else if (event.key.length === 1) text = event.key;
    if (text === undefined) return;
    event.preventDefault();
    this.type(text);
  }
}
