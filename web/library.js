// The calls of the proved module, from text to text: crates/page has them, and what a caller owes.

const TOO_SMALL = 2n ** 64n - 1n;
// Most trees fit: a room that is too small costs the search once more.
const ROOMS = [1 << 20, 1 << 24, 1 << 26];

// The shortest module with a 64-bit memory: a browser that takes it runs the module as it was linked.
const WIDE = new Uint8Array([0, 97, 115, 109, 1, 0, 0, 0, 5, 3, 1, 4, 1]);

/** The file of the module that this browser runs. */
export function moduleName() {
  return WebAssembly.validate(WIDE) ? "out/minimate64.wasm" : "out/minimate32.wasm";
}

/** The code of a module, which a page and its worker share. */
export async function compiled(url) {
  const answer = await fetch(url);
  if (!answer.ok) throw new Error(`${url} can't be read: web/build makes it`);
  return WebAssembly.compile(await answer.arrayBuffer());
}

/** A new instance of the module, whose memory is laid out for one call. */
export class Instance {
  static #encoder = new TextEncoder();
  static #decoder = new TextDecoder();
  #calls;
  #top;
  #lent = false;

  constructor(code) {
    this.#calls = new WebAssembly.Instance(code, {}).exports;
    this.#top = (BigInt(this.#calls.__heap_base.value) + 15n) & ~15n;
  }

  /** What the call of this name answers, and its number of bytes at the room. */
  call(name, values) {
    if (!this.#lent) throw new Error("a call is owed memory");
    return BigInt.asUintN(64, this.#calls[`page_${name}`](...values));
  }

  /** Bytes that nothing else has, where a word of any size may stand: none of those that are lent. */
  taken(length) {
    if (this.#lent) throw new Error("what is left is lent");
    const at = this.#top;
    this.#top = (at + BigInt(length) + 15n) & ~15n;
    return at;
  }

  /** A text, or its bytes: where they stand, and their number. */
  text(text) {
    const bytes = typeof text === "string" ? Instance.#encoder.encode(text) : text;
    const at = this.taken(bytes.length);
    this.#bytes(at, bytes.length).set(bytes);
    return [at, BigInt(bytes.length)];
  }

  /** What a search is to find, and within what, as `Terms` of the calls. */
  terms(stale, limit, slots) {
    const at = this.taken(12);
    const words = new DataView(this.#calls.memory.buffer, Number(at), 12);
    words.setUint8(0, Number(stale));
    words.setUint32(4, limit, true);
    words.setUint32(8, slots, true);
    return at;
  }

  /** Writes at this place which memory the call is lent: all that is left. */
  lend(at) {
    const buffer = this.#calls.memory.buffer;
    const left = (BigInt(buffer.byteLength) - this.#top) & ~15n;
    if (left <= 0n) throw new Error("nothing is left to lend");
    this.#lent = true;
    const words = new DataView(buffer, Number(at), 16);
    words.setBigUint64(0, this.#top, true);
    words.setBigUint64(8, left, true);
  }

  read(at, count) {
    return Instance.#decoder.decode(this.#bytes(at, Number(count)));
  }

  #bytes(at, count) {
    return new Uint8Array(this.#calls.memory.buffer, Number(at), count);
  }
}

/** The calls. What a call is lent stays the module's, so each has an instance of its own, and none rests on the one before. */
export class Library {
  #code;

  constructor(code) {
    this.#code = code;
  }

  moves(fen) {
    return this.#reply("moves", (lay) => lay.text(fen));
  }

  fault(fen) {
    return this.#reply("fault", (lay) => lay.text(fen));
  }

  after(fen, move) {
    return this.#reply("after", (lay) => [...lay.text(fen), ...lay.text(move)]);
  }

  check(fen, stale, tree) {
    return this.#reply("check", (lay) => [...lay.text(fen), Number(stale), ...lay.text(tree)]);
  }

  verify(fen, stale, certificate) {
    return this.#reply("verify", (lay) => [...lay.text(fen), Number(stale), ...lay.text(certificate)]);
  }

  /** `solve`, `keys` or `tree`. */
  search(name, fen, stale, limit, slots) {
    return this.#reply(name, (lay) => [...lay.text(fen), lay.terms(stale, limit, slots)]);
  }

  // Lends more room until the reply fits.
  #reply(name, laid) {
    for (const length of ROOMS) {
      const reply = this.#tried(name, laid, length);
      if (reply !== null) return reply;
    }
    return "refused: NoMemory\n";
  }

  #tried(name, laid, length) {
    const lay = new Instance(this.#code);
    const memory = lay.taken(16);
    const values = laid(lay);
    const room = lay.taken(length);
    lay.lend(memory);
    const count = lay.call(name, [memory, ...values, room, BigInt(length)]);
    return count === TOO_SMALL ? null : lay.read(room, count);
  }
}
