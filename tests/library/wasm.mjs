// Both ends of the library in one WebAssembly module: a batch goes from the sender to the receiver,
// at once and over lines that are late. usage: node wasm.mjs MODULE
import { readFileSync } from "node:fs";
import { argv, exit } from "node:process";
import { Rb } from "./rb.mjs";

// A node that knows no memory of 64 bits refuses the module; status 77 tells that.
function instance() {
  try {
    return new WebAssembly.Instance(new WebAssembly.Module(readFileSync(argv[2])), {});
  } catch (fault) {
    console.log(String(fault));
    exit(fault instanceof WebAssembly.CompileError ? 77 : 1);
  }
}

const { exports: ym } = instance();
try {
  ym.memory.grow(2n);
} catch {
  ym.memory.grow(2);
}
const bytes = new Uint8Array(ym.memory.buffer), view = new DataView(ym.memory.buffer);

function wants(holds, text) {
  if (!holds) {
    console.log(text);
    exit(1);
  }
}

// Where things stand, each at a multiple of 8, by their sizes in ymodem.h.
let next = (Number(ym.__heap_base.value) + 7) & ~7;
function room(size) {
  const at = next;
  next += (size + 7) & ~7;
  wants(next <= bytes.length, "no room");
  return at;
}
const receiver = { at: room(1152), state: 28, len: 116, held: 120 }, sender = { at: room(1072), file: 8, len: 12, state: 28, frame: 36 };
const ask = { at: room(48), count: 16, kind: 24, place: 28 }, fill = { at: room(16), kind: 8, file: 12 };
const blocks = room(64), reply = room(8), scratch = room(2048);
const u32 = (of, field) => view.getUint32(of.at + field, true), u64 = (of, field) => Number(view.getBigUint64(of.at + field, true));

function put(data) {
  bytes.set(data, scratch);
  return [BigInt(scratch), BigInt(data.length)];
}

function some(size) {
  let state = 2463534242;
  return Uint8Array.from({ length: size }, () => (state = (state * 1664525 + 1013904223) >>> 0) >>> 24);
}

const files = [0, 1, 128, 1500, 5000].map((size, i) => ({ name: new TextEncoder().encode(`file ${i}`), data: some(size) }));
files.forEach(({ data }, i) => view.setBigUint64(blocks + 8 * i, BigInt(Math.floor(data.length / 1024) + Math.ceil((data.length % 1024) / 128)), true));
const batch = [BigInt(blocks), BigInt(files.length)];

function filled() {
  const kind = u32(fill, fill.kind), { name, data } = files[u32(fill, fill.file)], longs = Math.floor(data.length / 1024);
  if (kind === 1) return ym.ym_sender_header(BigInt(sender.at), ...put(name), BigInt(data.length), 1, 1700000000n, 0) === 0;
  if (kind === 0) return true;
  const number = u64(fill, 0), isLong = number <= longs;
  const start = isLong ? (number - 1) * 1024 : longs * 1024 + (number - 1 - longs) * 128;
  const body = new Uint8Array(isLong ? 1024 : 128).fill(0x1a);
  body.set(data.subarray(start, start + body.length));
  return ym.ym_sender_block(BigInt(sender.at), ...put(body)) === 0;
}

const stored = [];
let part;
function done() {
  const at = receiver.at + receiver.held + u32(ask, ask.place), some = bytes.slice(at, at + u64(ask, ask.count));
  switch (u32(ask, ask.kind)) {
    case 1: part = { name: some, data: [] }; break;
    case 2: part.data.push(...some); break;
    case 3: stored.push(part); break;
  }
  return 1;
}

// What the receiver answers to these bytes.
function answered(at, length) {
  while (length > 0) {
    const used = Number(ym.ym_receiver_feed(BigInt(receiver.at), BigInt(at), BigInt(length)));
    if (used === 0) break;
    at += used;
    length -= used;
  }
  wants(length === 0, "a frame is not taken whole");
  ym.ym_receiver_hear(BigInt(receiver.at), BigInt(ask.at));
  return ym.ym_receiver_answer(BigInt(receiver.at), done(), BigInt(reply), 2n);
}

wants(ym.ym_check(...put(new TextEncoder().encode("123456789"))) === 0x31c3, "the check");
ym.ym_receiver_init(BigInt(receiver.at), 0);
ym.ym_sender_init(BigInt(sender.at), ...batch);
let length = answered(scratch, 0);
for (let i = 0; i < 200 && u32(sender, sender.state) === 0; i++) {
  ym.ym_sender_hear(BigInt(sender.at), ...batch, BigInt(reply), length, BigInt(fill.at));
  wants(filled(), "a frame is not filled");
  const out = ym.ym_sender_out(BigInt(sender.at), ...batch);
  length = out === 1 ? answered(sender.at + sender.frame, u32(sender, sender.len)) : 0n;
}
wants(u32(sender, sender.state) === 1 && u32(receiver, receiver.state) === 1, `sender ${u32(sender, sender.state)}, receiver ${u32(receiver, receiver.state)}`);
wants(stored.length === files.length, `${stored.length} files`);
const same = (one, other) => one.length === other.length && one.every((byte, i) => byte === other[i]);
files.forEach((file, i) => wants(same(file.name, stored[i].name) && same(file.data, stored[i].data), `file ${i} differs`));

// ---- The same over a line that delays and stands still, by the calls of a line: the loop of
// docs/timing.md, by a clock that this file winds on.

const FIRST = 0, MORE = 1, SIZE = 2048;
// The time, and what the clock of a host tells of it.
let clock = 0, told = (at) => at;

// An end of a line, as a generator: it yields until when it waits, and gets what came, or nothing.
class End {
  constructor(receives) {
    this.receives = receives;
    this.line = BigInt(room(192));
    this.clearing = BigInt(room(32));
    this.came = room(SIZE);
    this.heard = room(2 * SIZE);
    this.last = room(1029);
  }

  start(run) {
    Object.assign(this, { lastLength: 0n, now: 0n, inbox: [], out: [], isOver: false, writes: 0 });
    ym.ym_line_init(this.line, this.receives ? 1 : 0);
    this.run = run(this);
    this.resume();
  }

  resume(piece) {
    const { done, value } = this.run.next(piece);
    this.isOver = done;
    if (!done) this.until = clock + Number(value - this.now);
  }

  look() {
    this.now = ym.ym_line_now(this.line, BigInt(told(clock)));
  }

  // What came, and what was written last.
  given(length) {
    return [BigInt(this.came), length, BigInt(this.last), this.lastLength];
  }

  *get(until) {
    const piece = yield until;
    if (piece) this.look();
    else this.now = ym.ym_line_waited(this.line, until, BigInt(told(clock)));
    if (piece) bytes.set(piece, this.came);
    return piece ? BigInt(piece.length) : 0n;
  }

  *read(wait) {
    if (wait === FIRST) this.look();
    const start = this.now;
    for (;;) {
      const until = ym.ym_line_until(this.line, wait, wait === FIRST ? start : this.now);
      const length = yield* this.get(until);
      const room = [BigInt(this.heard), length * 2n];
      const count = ym.ym_line_hear(this.line, ...this.given(length), this.now, ...room);
      if (count > 0n) return Number(count);
      if (length > 0n && ym.ym_line_until(this.line, FIRST, start) > this.now) continue;
      const vain = ym.ym_line_expired(this.line, wait, this.now);
      if (vain === 1) bytes[this.heard] = 6;
      if (vain !== 0) return vain === 1 ? 1 : 0;
    }
  }

  *write(at, length) {
    this.look();
    ym.ym_line_clearing(this.line, BigInt(at), BigInt(length), this.now, this.clearing);
    for (;;) {
      const until = ym.ym_line_clear_at(this.line, this.clearing);
      if (until <= this.now) break;
      const length = yield* this.get(until);
      ym.ym_line_drop(this.line, this.clearing, ...this.given(length), this.now);
    }
    ym.ym_line_wrote(this.line, this.clearing, BigInt(at), BigInt(length), this.now);
    bytes.copyWithin(this.last, at, at + length);
    this.lastLength = BigInt(length);
    this.out.push(bytes.slice(at, at + length));
  }
}

function* receives(end) {
  ym.ym_receiver_init(BigInt(receiver.at), 0);
  while (u32(receiver, receiver.state) === 0) {
    for (let came = 0; came < SIZE; ) {
      const count = yield* end.read(came ? MORE : FIRST);
      came += count;
      let fed = 0, took;
      do {
        const piece = [BigInt(end.heard + fed), BigInt(count - fed)];
        took = Number(ym.ym_receiver_feed(BigInt(receiver.at), ...piece));
        fed += took;
      } while (took > 0 && fed < count);
      if (count === 0 || ym.ym_receiver_wants(BigInt(receiver.at)) === 0n) break;
    }
    ym.ym_receiver_hear(BigInt(receiver.at), BigInt(ask.at));
    const room = [BigInt(reply), 2n];
    const length = Number(ym.ym_receiver_answer(BigInt(receiver.at), done(), ...room));
    if (length) yield* end.write(reply, length);
  }
}

function* sends(end) {
  ym.ym_sender_init(BigInt(sender.at), ...batch);
  while (u32(sender, sender.state) === 0) {
    let held = 0;
    while (held < 64) {
      const count = yield* end.read(held ? MORE : FIRST);
      bytes.copyWithin(delivery + held, end.heard, end.heard + count);
      held += count;
      const heard = [BigInt(delivery), BigInt(held)];
      if (count === 0 || ym.ym_sender_settled(BigInt(sender.at), ...batch, ...heard)) break;
    }
    const heard = [BigInt(delivery), BigInt(held)];
    ym.ym_sender_hear(BigInt(sender.at), ...batch, ...heard, BigInt(fill.at));
    wants(filled(), "a frame is not filled");
    const isOut = ym.ym_sender_out(BigInt(sender.at), ...batch) === 1;
    if (isOut) yield* end.write(sender.at + sender.frame, u32(sender, sender.len));
  }
}

const delivery = room(4 * SIZE), near = new End(false), ours = new End(true), rb = new Rb(() => clock, stored);

// Plays both ends on a line that hands on each write of an end as long behind it as this says. No
// file is reported that is not there.
function play(delayed, far = ours) {
  clock = 0;
  stored.length = 0;
  near.start(sends);
  far.start(receives);
  const hand = (from, to) => {
    for (const piece of from.out.splice(0)) {
      const before = to.inbox.at(-1)?.at ?? 0;
      from.writes++;
      to.inbox.push({ at: Math.max(before, clock + delayed(from)), piece });
    }
  };
  while (!near.isOver || !far.isOver) {
    hand(near, far);
    hand(far, near);
    const due = (it) => Math.min(it.inbox[0]?.at ?? Infinity, it.until);
    const next = [near, far].filter((it) => !it.isOver).map((it) => [due(it), it]);
    const [when, end] = next.reduce((one, other) => (other[0] < one[0] ? other : one));
    clock = Math.max(clock, when);
    end.resume(end.inbox[0]?.at <= clock ? end.inbox.shift().piece : undefined);
  }
  const reported = u32(sender, sender.file);
  wants(reported <= stored.length, `${reported} files of ${stored.length} are reported`);
  return [u32(sender, sender.state), u32(receiver, receiver.state)];
}

function exact(how) {
  stored.forEach(({ name, data }, i) => {
    wants(same(name, files[i].name) && same(data, files[i].data), `${how}: file ${i} differs`);
  });
}

// The same with this delay, where one write of one end is held for so long.
function late(delay, stalls, held, at) {
  const how = `${delay} ms each way, ${held} ms at write ${at}`;
  const isHeld = (end) => end === stalls && end.writes === at;
  const states = play((end) => delay + (isHeld(end) ? held : 0));
  wants(states.every((it) => it === 1), `${how}: the ends are at ${states}`);
  wants(stored.length === files.length, `${how}: ${stored.length} files`);
  exact(how);
}

for (const delay of [0, 500, 1500, 2500, 4000]) late(delay, near, 0, 0);
for (const held of [3500, 6000, 12000]) {
  for (let at = 1; at < 12; at++) for (const end of [near, ours]) late(500, end, held, at);
}

// How much of a jitter a write meets, from 0 to 1.
function chance(seed) {
  let state = seed;
  return () => (state = (state * 1664525 + 1013904223) >>> 0) / 2 ** 32;
}

// ---- `rb`, which asks again and again, whatever the line takes, and drops what comes meanwhile.

function toRb(delay, jitter, seed) {
  const how = `to rb, ${delay} ms each way, up to ${jitter} more, seed ${seed}`;
  const more = chance(seed);
  const [sent] = play(() => delay + Math.floor(jitter * more()), rb);
  exact(how);
  const isAll = rb.hasAll && stored.length === files.length;
  wants(sent !== 1 || isAll, `${how}: finished, and ${stored.length} files are there`);
  wants(jitter > 0 || sent === 1, `${how}: the sender is at ${sent}`);
}

for (let delay = 0; delay <= 12000; delay += 250) {
  toRb(delay, 0, 0);
  for (let seed = 1; seed < 5; seed++) toRb(delay, 1000, seed);
}

// ---- Clocks that lie: they delay, and no report is false. Each answer takes up to a second more
// than the one before, or less.

const CLOCKS = {
  "stands still": () => 5000,
  "jumps back": (at) => 100000 + at - Math.floor(at / 7000) * 4000,
};

function lies(name, delay, seed) {
  const how = `a clock that ${name}, ${delay} ms each way, seed ${seed}`;
  const more = chance(seed);
  told = CLOCKS[name];
  const [sent, received] = play(() => delay + Math.floor(1000 * more()));
  exact(how);
  const isAll = received === 1 && stored.length === files.length;
  wants(sent !== 1 || isAll, `${how}: finished, and ${stored.length} files are there`);
}

for (const name in CLOCKS) {
  for (let delay = 4000; delay <= 12000; delay += 250) for (let seed = 1; seed < 5; seed++) lies(name, delay, seed);
}
