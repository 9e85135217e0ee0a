// Calls of two modules of the library: one whose pointers and lengths have 64 bits, and one where
// they have 32. Both have to answer the same, and to leave the same bytes: in batches between the
// two ends on lines that damage, and in random calls on structs of rubbish.
// usage: node web_calls.mjs HEADER WIDE NARROW CALLS SEED
import { readFileSync } from "node:fs";
import { argv, exit } from "node:process";

const [header, wide, narrow] = argv.slice(2, 5), calls = Number(argv[5]);
const LONGEST = 1100, FILES = 4, BATCHES = calls / 100, STEPS = 300;

let state = BigInt(argv[6]) | 1n;
function chance() {
  state ^= (state << 13n) & 0xffffffffffffffffn;
  state ^= state >> 7n;
  state ^= (state << 17n) & 0xffffffffffffffffn;
  return (state * 0x2545f4914f6cdd1dn) & 0xffffffffffffffffn;
}
const below = (bound) => Number(chance() % BigInt(bound));
const oneOf = (some) => some[below(some.length)];
const bytesOf = (size, draw) => Uint8Array.from({ length: size }, draw);

// A number of 64 bits, and one of 32: small ones, large ones and any.
const LARGEST = 2n ** 64n - 1n;
const DRAWS = [() => 0n, ...[3, 1200, 70000].map((it) => () => BigInt(below(it)))];
DRAWS.push(() => LARGEST - BigInt(below(3)), chance);
const long = () => oneOf(DRAWS)();
const word = () => Number(long() & 0xffffffffn);

// Of each call its parameters: an area of memory, a length of the area before it, or a number.
const PROTOTYPE = /^(\w+) (ym_\w+)\(([^)]*)\);$/gm, SIZE = /YM_SIZE\((\w+), (\d+)\)/g;
const text = readFileSync(header, "utf8").replace(/\n +/g, " ");
const KINDS = { uint32_t: "word", uint64_t: "long", size_t: "length", void: "nothing" };
function parameter(it) {
  const [, kind, isPointer, name] = it.match(/^(?:const )?(\w+) (\*?)(\w+)$/);
  if (!isPointer) return { kind: KINDS[kind] };
  return { kind: "area", area: kind.startsWith("ym_") ? kind : name };
}
const PROTOTYPES = new Map();
for (const [, result, name, given] of text.matchAll(PROTOTYPE)) {
  PROTOTYPES.set(name, { name, result: KINDS[result], given: given.split(", ").map(parameter) });
}
const fieldOf = (kind, name) => Number(text.match(`YM_AT\\(${kind}, ${name}, (\\d+)\\)`)[1]);

// Where everything stands that a call may read or write, without a gap: each at a multiple of 8.
const SIZES = { blocks: 8 * FILES, heard: 2 * LONGEST, far_line: 192, far_clearing: 32 };
for (const [, name, size] of text.matchAll(SIZE)) SIZES[name] = Number(size);
const START = 1 << 17, AREAS = {};
let end = START;
const named = [...PROTOTYPES.values()].flatMap(({ given }) => given.map((it) => it.area));
for (const area of new Set([...named.filter(Boolean), ...Object.keys(SIZES)])) {
  const size = SIZES[area] ?? LONGEST;
  AREAS[area] = { at: end, size };
  end += (size + 7) & ~7;
}

function opened(path) {
  const { exports } = new WebAssembly.Instance(new WebAssembly.Module(readFileSync(path)), {});
  exports.memory.grow(2);
  const bytes = new Uint8Array(exports.memory.buffer, START, end - START);
  return { exports, bytes, isWide: path === wide };
}
const [one, other] = [opened(wide), opened(narrow)];
const THERE = [...PROTOTYPES.values()].filter(({ name }) => name in other.exports);

const at = (area) => AREAS[area].at;
const part = (area) => one.bytes.subarray(at(area) - START, at(area) - START + AREAS[area].size);
const view = new DataView(one.bytes.buffer, START, end - START);
const number = (area, name, kind = area) =>
  view.getUint32(at(area) - START + fieldOf(kind, name), true);

// ---- A call of both

function answered(module, { name, given, result }, values) {
  const isBig = ({ kind }) => module.isWide && (kind === "area" || kind === "length");
  const got = module.exports[name](...values.map((it, i) => (isBig(given[i]) ? BigInt(it) : it)));
  if (result === "nothing") return 0n;
  return BigInt.asUintN(result === "long" ? 64 : 32, BigInt(got));
}

const seen = {};
function both(name, ...values) {
  const call = PROTOTYPES.get(name);
  other.bytes.set(one.bytes);
  const [wanted, found] = [answered(one, call, values), answered(other, call, values)];
  seen[name] = (seen[name] ?? new Set()).add(wanted);
  if (wanted !== found || Buffer.compare(one.bytes, other.bytes)) {
    console.log(`${name}(${values.join(", ")}): ${wanted}, and ${found}`);
    exit(1);
  }
  return call.result === "long" ? wanted : Number(wanted);
}

// ---- Batches

let now = 0n;

/** The line of an end. */
class Line {
  written = new Uint8Array();

  constructor(name, receives) {
    [this.line, this.clearing] = [at(`${name}_line`), at(`${name}_clearing`)];
    both("ym_line_init", this.line, receives);
  }

  /** What is heard of these bytes stands in `heard`: answers how many that are. */
  hears(bytes) {
    now = both("ym_line_now", this.line, now + BigInt(below(4) ? below(50) : below(9000)));
    const wait = below(2), until = both("ym_line_until", this.line, wait, now);
    part("written").set(this.written);
    if (bytes.length === 0) {
      now = both("ym_line_waited", this.line, until, now);
      both("ym_line_expired", this.line, wait, now);
      return 0;
    }
    part("bytes").set(bytes);
    const came = [at("bytes"), bytes.length, at("written"), this.written.length, now];
    const count = both("ym_line_hear", this.line, ...came, at("heard"), AREAS.heard.size);
    return both("ym_line_cancels", at("heard"), count) || below(30) ? count : 0;
  }

  writes(from, length) {
    both("ym_line_clearing", this.line, from, length, now, this.clearing);
    const until = both("ym_line_clear_at", this.line, this.clearing);
    if (until > now && below(2)) {
      part("bytes").set(bytesOf(6, () => oneOf([0x06, 0x15, 0x18, 0x43])));
      const came = [at("bytes"), 6, at("written"), this.written.length, now];
      both("ym_line_drop", this.line, this.clearing, ...came);
      both("ym_line_cancelled", this.line);
    }
    both("ym_line_wrote", this.line, this.clearing, from, length, now);
    this.written = one.bytes.slice(from - START, from - START + length);
    return this.written;
  }
}

/** What the line makes of these bytes: mostly nothing. */
function carried(bytes) {
  const kind = below(40), it = bytes.slice();
  if (kind === 0) return it.subarray(0, 0);
  if (kind === 1) return it.subarray(0, below(it.length + 1));
  if (kind === 2 && it.length) it[below(it.length)] ^= 1 + below(255);
  return it;
}

const SENDER = [at("ym_sender"), at("blocks")];
const NAMES = ["a.bin", "a file (2)", "\xe4", "..", "a/b", "n".repeat(255)];

/** Has the sender hear these bytes, and answers what it writes. */
function sent(line, bytes, lengths) {
  const self = [...SENDER, lengths.length], count = line.hears(bytes);
  both("ym_sender_settled", ...self, at("heard"), count);
  both("ym_sender_hear", ...self, at("heard"), count, at("ym_fill"));
  const kind = number("ym_fill", "kind"), length = lengths[number("ym_fill", "file")];
  if (kind === 1) {
    const name = new TextEncoder().encode(oneOf([NAMES[0], oneOf(NAMES)]));
    part("name").set(name);
    const stamp = [below(3), long(), word()];
    const given = [at("name"), name.length, BigInt(length), ...stamp];
    if (both("ym_sender_header", SENDER[0], ...given)) both("ym_sender_failed", ...self);
  } else if (kind === 2) {
    const isLong = number("ym_fill", "number") <= length / 1024;
    part("body").set(bytesOf(1024, () => below(256)));
    both("ym_sender_block", SENDER[0], at("body"), isLong ? 1024 : 128);
  }
  if (both("ym_sender_out", ...self) !== 1) return new Uint8Array();
  const frame = SENDER[0] + fieldOf("ym_sender", "frame");
  both("ym_frame_read", frame, number("ym_sender", "len"), at("ym_front"));
  return line.writes(frame, number("ym_sender", "len"));
}

/** Has the receiver hear these bytes, and answers what it writes. */
function received(line, bytes) {
  const count = line.hears(bytes), self = at("ym_receiver");
  for (let fed = 0, took = 1; fed < count && took > 0; fed += took) {
    const piece = Math.min(count - fed, 1 + below(2000));
    took = both("ym_receiver_feed", self, at("heard") + fed, piece);
    both("ym_receiver_wants", self);
  }
  both("ym_receiver_hear", self, at("ym_ask"));
  const done = below(50) ? 1 : 0, room = below(60) ? 2 : 1;
  return line.writes(at("reply"), both("ym_receiver_answer", self, done, at("reply"), room));
}

function batch() {
  const size = () => oneOf([0, 1, 128, 129, 1500, 4000]);
  const lengths = Array.from({ length: below(FILES + 1) }, size);
  const blocks = lengths.map((it) => Math.floor(it / 1024) + Math.ceil((it % 1024) / 128));
  blocks.forEach((it, i) => view.setBigUint64(at("blocks") - START + 8 * i, BigInt(it), true));
  both("ym_sender_init", ...SENDER, lengths.length);
  both("ym_receiver_init", at("ym_receiver"), below(2));
  const [near, far] = [new Line("ym", 0), new Line("far", 1)];
  let reply = Uint8Array.of(0x43);
  for (let steps = 0; steps < STEPS; steps++) {
    reply = carried(received(far, carried(sent(near, reply, lengths))));
    if (number("ym_sender", "state") && number("ym_receiver", "state", "ym_stand")) return;
  }
}

// ---- Random calls

/** Numbers of rubbish, of which some may be those of an end. */
function anything() {
  for (const area of Object.keys(AREAS)) {
    const draw = oneOf([word, () => below(12), () => below(2)]);
    for (let i = 0; i + 4 <= AREAS[area].size; i += 4) {
      view.setUint32(at(area) - START + i, below(6) ? draw() : word(), true);
    }
  }
}

function drawn({ given }) {
  let size = 0;
  return given.map(({ kind, area }) => {
    if (kind === "word") return below(3) ? below(4) : word();
    if (kind === "long") return long();
    if (kind === "length") return Math.min(oneOf([0, 1, 2, 5, 128, 133, 1024, below(2000)]), size);
    size = area === "blocks" ? FILES : AREAS[area].size;
    return at(area);
  });
}

for (let i = 0; i < BATCHES; i++) batch();
for (let i = 0; i < calls; i++) {
  if (below(20) === 0) anything();
  const call = oneOf(THERE);
  // what begins anew does so at times
  if (!call.name.endsWith("_init") || below(4) === 0) both(call.name, ...drawn(call));
}
// A call that always answers the same was tried in vain.
const few = THERE.filter(({ name, result }) => result !== "nothing" && seen[name].size < 2);
if (few.length) console.log(`of few answers: ${few.map((it) => it.name).join(" ")}`);
exit(few.length ? 1 : 0);
