/* Both ends of ymodem.js over lines with delay, jitter, stalls, echo and noise, by a clock that the
   check winds on by itself: hours of waiting take a moment, and a busy machine changes nothing. It
   stands in a page that has the module as `y`, and its bytes as `y.load` takes them. */

/** The clock of the page: time goes on once nothing is left to be done at this moment. */
class Clock {
  now = 0;
  timers = [];
  count = 0;
  // What the browser does beside the script: it ends whenever it does, and takes no time here.
  pending = 0;

  constructor() {
    performance.now = () => this.now;
    globalThis.setTimeout = (act, millis = 0) => {
      this.timers.push({ at: this.now + Math.max(0, millis), id: ++this.count, act });
      return this.count;
    };
    globalThis.clearTimeout = (id) => {
      this.timers = this.timers.filter((it) => it.id !== id);
    };
    this.follow(Blob.prototype, "arrayBuffer");
    this.follow(WebAssembly, "instantiate");
  }

  follow(of, name) {
    const clock = this;
    const real = of[name];
    of[name] = function (...given) {
      clock.pending++;
      return real.apply(this, given).finally(() => clock.pending--);
    };
  }

  /** Waits until the page has nothing to do at this moment. */
  async settled() {
    do {
      for (let hops = 0; hops < 2; hops++) {
        await new Promise((done) => {
          const { port1, port2 } = new MessageChannel();
          port1.onmessage = () => {
            port1.close();
            done();
          };
          port2.postMessage(0);
        });
      }
    } while (this.pending > 0);
  }

  /** Goes on until this is so. */
  async until(isSo) {
    for (;;) {
      await this.settled();
      if (isSo()) return;
      if (this.timers.length === 0) throw new Error("nobody waits for anything");
      const sooner = (one, other) => one.at - other.at || one.id - other.id;
      const next = this.timers.reduce((one, other) => (sooner(one, other) <= 0 ? one : other));
      this.timers.splice(this.timers.indexOf(next), 1);
      this.now = Math.max(this.now, next.at);
      next.act();
    }
  }
}

/** Numbers from 0 to 1 that are the same for the same seed. */
function chances(seed) {
  let state = (seed + 1) * 2654435761;
  return () => {
    state = (state + 0x6d2b79f5) | 0;
    let mixed = Math.imul(state ^ (state >>> 15), 1 | state);
    mixed = (mixed + Math.imul(mixed ^ (mixed >>> 7), 61 | mixed)) ^ mixed;
    return ((mixed ^ (mixed >>> 14)) >>> 0) / 4294967296;
  };
}

/** One way of a line: it hands on in order, each piece no sooner than it is due. */
class Way {
  writes = 0;
  due = 0;
  free = 0;

  constructor(row, seed, who) {
    this.row = row;
    this.chance = chances(seed);
    this.stall = row.stall && row.stall.who === who ? row.stall : null;
    this.readable = new ReadableStream({ start: (it) => (this.to = it) });
    this.writable = new WritableStream({ write: (piece) => this.take(piece) });
  }

  take(piece) {
    const { delay = 0, jitter = 0, rate = 0 } = this.row;
    this.writes++;
    const held = this.stall?.at === this.writes ? this.stall.long * 1000 : 0;
    const carried = rate ? (piece.length * 1000) / rate : 0;
    this.free = Math.max(this.free, performance.now() + held) + carried;
    this.due = Math.max(this.due, this.free + delay * 1000 + this.chance() * jitter * 1000);
    const made = this.damaged(piece);
    setTimeout(() => this.to.enqueue(made), this.due - performance.now());
    this.echo?.take(piece.slice(0, this.row.cut));
  }

  damaged(piece) {
    const { lost = 0, flipped = 0 } = this.row;
    if (!lost && !flipped) return piece.slice();
    const made = [];
    for (const byte of piece) {
      const [chance, bit] = [this.chance(), Math.floor(this.chance() * 8)];
      if (chance >= lost) made.push(chance < lost + flipped ? byte ^ (1 << bit) : byte);
    }
    return Uint8Array.from(made);
  }
}

function batch(sizes) {
  return sizes.map((size, at) => {
    const chance = chances(size * 31 + at);
    const data = Uint8Array.from({ length: size }, () => Math.floor(chance() * 256));
    return { name: `file ${at}`, data };
  });
}

/** How an end came out: why it ended, and the files that it tells of. */
const ended = (promise) =>
  promise.then(
    ({ files }) => ({ code: "finished", files }),
    (fault) => ({ code: fault.code ?? String(fault), files: fault.files ?? [] }),
  );

/** What is wrong with what both ends say, if anything is. */
async function fault(files, sent, received) {
  for (const [at, { name, file }] of received.files.entries()) {
    const bytes = new Uint8Array(await file.arrayBuffer());
    const { data } = files[at];
    const isSame = bytes.length === data.length && bytes.every((byte, at) => byte === data[at]);
    if (name !== files[at].name || !isSame) return `${name} differs`;
  }
  const kept = received.files.length;
  if (sent.files.length > kept) return `${sent.files.length} are told as sent, ${kept} are there`;
  const isAll = kept === files.length;
  if (!isAll && sent.code === "finished") return "the sender finished, and not all are there";
  if (!isAll && received.code === "finished") return "the receiver finished, and not all are there";
  return "";
}

let clock = null;

/** Plays one session. */
async function played(row, seed) {
  const [there, back] = [new Way(row, 2 * seed, "sender"), new Way(row, 2 * seed + 1, "receiver")];
  if (row.echo === "there") there.echo = back;
  const files = batch(row.files ?? [0, 300, 1500]);
  const here = { readable: back.readable, writable: there.writable };
  const far = { readable: there.readable, writable: back.writable };
  const began = clock.now;
  const late = async (who, act) => {
    if (row.late?.who === who) await new Promise((done) => setTimeout(done, row.late.long * 1000));
    return ended(act());
  };
  let both = null;
  Promise.all([
    late("sender", () => y.send(here, files)),
    late("receiver", () => y.receive(far)),
  ]).then((it) => (both = it));
  await clock.until(() => both !== null);
  const [sent, received] = both;
  const told = [sent, received].map((it) => `${it.files.length} ${it.code}`).join(", ");
  const wrong = await fault(files, sent, received);
  const isWhole = sent.code === "finished" && received.code === "finished";
  return { wrong, isWhole, told, seconds: (clock.now - began) / 1000, writes: there.writes };
}

/** How long a sender waits before it writes again, where its peer's reply is noise: a byte that is
 *  heard, and then, every 300 milliseconds for so long, one that is not. */
globalThis.waitedInNoise = async (long) => {
  await y.load("/ymodem.wasm");
  clock ??= new Clock();
  const [wrote, stop] = [[], new AbortController()];
  let to;
  const says = (at, ...bytes) => setTimeout(() => to.enqueue(Uint8Array.from(bytes)), at);
  const readable = new ReadableStream({ start: (it) => (to = it) });
  const writable = new WritableStream({
    write() {
      if (wrote.push(clock.now) > 1) return;
      says(0, 0x79);
      // as a frame begins, which no reply does
      says(50, 0x01, 0x78, 0x87);
      for (let at = 300; at <= long; at += 300) says(at, 0x79);
    },
  });
  const options = { heard: Uint8Array.of(0x43), signal: stop.signal };
  let end = null;
  ended(y.send({ readable, writable }, batch([5]), options)).then((it) => (end = it));
  await clock.until(() => wrote.length > 1);
  stop.abort();
  await clock.until(() => end !== null);
  return wrote[1] - wrote[0];
};

/** Plays the sessions of these rows, and answers how each came out. */
globalThis.playedRows = async (rows) => {
  await y.load("/ymodem.wasm");
  clock ??= new Clock();
  const outcomes = [];
  for (const row of rows) {
    const { wants = true, name, first = 0, seeds = 1 } = row;
    for (let seed = first; seed < first + seeds; seed++) {
      outcomes.push({ name, seed, wants, ...(await played(row, seed)) });
    }
  }
  return outcomes;
};
