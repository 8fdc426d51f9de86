// The binary format of modules: sections, and the instructions of WebAssembly 1.0 without floating point.

import { joined } from "./bytes.mjs";

/** The module can not be used; the message is what `awkwasm exec` prints of it, where it has a name of its own. */
export class LoadError extends Error {}

/** An unsigned integer, as the format writes it. */
export function u32(n) {
  const bytes = [];
  for (; n >= 128; n = Math.floor(n / 128)) bytes.push((n % 128) + 128);
  return [...bytes, n];
}

/** A signed integer, as the format writes it. */
export function s64(n) {
  const bytes = [];
  for (let left = BigInt(n); ; ) {
    const low = Number(left & 127n);
    left >>= 7n;
    if ((left === 0n && low < 64) || (left === -1n && low >= 64)) return [...bytes, low];
    bytes.push(low | 128);
  }
}

/** Bytes that are read from left to right. The engine has found them well formed. */
export class Cursor {
  constructor(bytes, at, end) {
    this.bytes = bytes;
    this.at = at;
    this.end = end;
  }

  byte() {
    return this.bytes[this.at++];
  }

  u32() {
    let n = 0;
    for (let scale = 1; ; scale *= 128) {
      const byte = this.byte();
      n += (byte & 127) * scale;
      if (byte < 128) return n;
    }
  }

  skip() {
    while (this.byte() >= 128);
  }

  take(length) {
    const part = this.bytes.subarray(this.at, this.at + length);
    this.at += length;
    return part;
  }

  counted() {
    return this.take(this.u32());
  }

  name() {
    return new TextDecoder().decode(this.counted());
  }

  /** What `read` gives, as often as the number at the front says. */
  list(read) {
    return Array.from({ length: this.u32() }, () => read(this));
  }
}

const CUSTOM = 0;

/** The sections of a module: bytes by number, and the custom ones in their order. */
export function sectionsOf(bytes) {
  const sections = new Map();
  const customs = [];
  for (const all = new Cursor(bytes, 8, bytes.length); all.at < all.end; ) {
    const id = all.byte();
    const body = all.counted();
    if (id === CUSTOM) customs.push(body);
    else sections.set(id, body);
  }
  return { sections, customs };
}

/** The bytes of a module of these sections. Custom sections come last. */
export function moduleOf({ sections, customs }) {
  const ids = [...sections.keys()].sort((a, b) => a - b);
  const all = [...ids.map((id) => [id, sections.get(id)]), ...customs.map((body) => [CUSTOM, body])];
  const header = [0, 0x61, 0x73, 0x6d, 1, 0, 0, 0];
  return joined([header, ...all.flatMap(([id, body]) => [[id, ...u32(body.length)], body])]);
}

// What follows each opcode: nothing, a block type, an integer, two of them, or a list of labels.
const [NONE, BLOCK, ONE, TWO, LABELS] = [1, 2, 3, 4, 5];

function followed(ranges) {
  const table = new Uint8Array(256);
  for (const [what, from, to = from] of ranges) table.fill(what, from, to + 1);
  return table;
}

const OPCODES = followed([
  [NONE, 0x00, 0x01], [BLOCK, 0x02, 0x04], [NONE, 0x05], [NONE, 0x0b], [ONE, 0x0c, 0x0d], [LABELS, 0x0e], [NONE, 0x0f], [ONE, 0x10], [TWO, 0x11],
  [NONE, 0x1a, 0x1b], [ONE, 0x20, 0x24], [TWO, 0x28, 0x29], [TWO, 0x2c, 0x37], [TWO, 0x3a, 0x3e], [ONE, 0x3f, 0x42], [NONE, 0x45, 0x5a],
  [NONE, 0x67, 0x8a], [NONE, 0xa7], [NONE, 0xac, 0xad], [NONE, 0xc0, 0xc4],
]);

export const OP = { unreachable: 0x00, nop: 0x01, block: 0x02, loop: 0x03, if: 0x04, end: 0x0b, br: 0x0c, return: 0x0f };

/** Passes one instruction, and answers its opcode; BadOpcode if neither WebAssembly 1.0 without floating point nor sign extension has it. */
export function passInstruction(code) {
  const opcode = code.byte();
  switch (OPCODES[opcode]) {
    case NONE: break;
    case BLOCK: code.byte(); break;
    case ONE: code.skip(); break;
    case TWO: code.skip(); code.skip(); break;
    case LABELS: code.list(() => code.skip()); code.skip(); break;
    default: throw new LoadError("BadOpcode");
  }
  return opcode;
}
