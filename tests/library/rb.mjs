// A receiver of another maker, on a line of wasm.mjs: a generator, as its ends are, that yields how
// long it waits, and gets what came, or nothing.

// lrzsz's `rb`, as its source has it. It waits ten seconds for block 0, thirteen for block 1, five
// for another one, and four where it asked again. Before it asks, and behind an EOT's ACK, it drops
// what comes until a second was quiet. No line damages a byte here, so a frame that came is right.
export class Rb {
  constructor(clock, stored) {
    Object.assign(this, { clock, stored });
  }

  start() {
    Object.assign(this, { inbox: [], out: [], isOver: false, hasAll: false, writes: 0, held: [] });
    this.run = this.takes();
    this.resume();
  }

  resume(piece) {
    const { done, value } = this.run.next(piece);
    this.isOver = done;
    if (!done) this.until = this.clock() + value;
  }

  says(...reply) {
    this.out.push(Uint8Array.from(reply));
  }

  *byte(wait) {
    if (this.held.length === 0) this.held = [...((yield wait) ?? [])];
    return this.held.shift();
  }

  *purge() {
    this.held = [];
    while (yield 1000);
  }

  *some(size) {
    const came = [];
    for (let byte; came.length < size; came.push(byte)) {
      byte = yield* this.byte(1000);
      if (byte === undefined) return [];
    }
    return came;
  }

  // A block from its number on, or an EOT, which is empty; nothing where it gives up.
  *block(ask, first) {
    for (let tries = 0, wait = first; tries < 11; tries++) {
      const head = yield* this.byte(wait);
      if (head === 4 && (yield* this.byte(1000)) === undefined) return [];
      const came = head === 1 || head === 2 ? yield* this.some(head === 1 ? 132 : 1028) : [];
      if (came.length > 0) return came;
      if (head === 24 && (yield* this.byte(1000)) === 24) return undefined;
      yield* this.purge();
      this.says(ask);
      if (ask === 21) wait = 4000;
    }
  }

  *opening() {
    for (;;) {
      this.says(67);
      const block = yield* this.block(67, 10000);
      if (block?.length !== 0) return block;
      this.says(6);
      yield* this.purge();
    }
  }

  *data(size) {
    const data = [];
    for (let count = 0; ; this.says(6)) {
      const block = yield* this.block(count ? 21 : 67, count ? 5000 : 13000);
      if (block?.length === 0) return data.length < size ? undefined : data.slice(0, size);
      if (block === undefined || (block[0] !== count && block[0] !== count + 1)) return undefined;
      if (block[0] !== count) data.push(...block.slice(2, -2));
      count = block[0];
    }
  }

  *takes() {
    for (;;) {
      const head = yield* this.opening();
      if (head?.[0] !== 0) return;
      this.says(6);
      this.hasAll = head[2] === 0;
      if (this.hasAll) return;
      this.says(67);
      const end = head.indexOf(0, 2), text = String.fromCharCode(...head.slice(end + 1));
      const data = yield* this.data(parseInt(text, 10));
      if (data === undefined) return;
      this.stored.push({ name: head.slice(2, end), data });
      this.says(6);
      yield* this.purge();
    }
  }
}
