// Makes a module ready to run: its imports are checked, and its code is changed so that the engine's own limits matter less.
//
// - The memory is exported, and so is the start function, which the run calls itself.
// - Each function counts how deep calls nest, and 10,001 calls in one another trap: the limit that `awkwasm exec` has.
// - Each `nop` notes its number. `compile` writes one for each program point, so after an error the line of the script can be found.
// - With a limit of steps each `nop`, each turn of a `loop` and each call takes one from a global, and traps if none is left. Every run that goes on for ever
//   passes such an instruction, whatever made the module.

import { joined } from "./bytes.mjs";
import { Cursor, LoadError, OP, moduleOf, passInstruction, s64, sectionsOf, u32 } from "./binary.mjs";
import { importOf } from "./imports.mjs";

const [TYPE, IMPORT, FUNCTION, MEMORY, GLOBAL, EXPORT, START, CODE] = [1, 2, 3, 5, 6, 7, 8, 10];
const [OF_FUNCTION, OF_MEMORY, OF_GLOBAL] = [0, 2, 3];
const I32 = 0x7f;
const I64 = 0x7e;
const EMPTY = 0x40;
const MOST_FRAMES = 10_000;
const MOST_NESTED = 4_000;
const MOST_BYTES = 16 * 2 ** 20;
const MOST_PAGES = 256;
// engines take no more
const MOST_LOCALS = 50_000;
const MOST_STEPS = 2n ** 63n - 1n;

/** The names under which a changed module exports what the run looks at. */
export const OWN = { memory: "awkwasm memory", start: "awkwasm start", depth: "awkwasm depth", place: "awkwasm place", steps: "awkwasm steps" };

const same = (a, b) => a.length === b.length && a.every((it, n) => it === b[n]);

class Changes {
  constructor(bytes, steps) {
    this.parts = sectionsOf(bytes);
    this.steps = steps;
    this.types = this.listed(TYPE, (it) => {
      it.byte();
      return { params: [...it.counted()], results: [...it.counted()] };
    });
    this.imports = this.listed(IMPORT, (it) => ({ module: it.name(), name: it.name(), kind: it.byte(), type: it.u32() }));
    this.functions = this.listed(FUNCTION, (it) => it.u32());
    this.exports = this.listed(EXPORT, (it) => ({ name: it.name(), kind: it.byte(), index: it.u32() }));
    this.globals = this.cursor(GLOBAL)?.u32() ?? 0;
    // how many places each function has, and all so far
    this.places = [];
    this.noted = 0;
  }

  cursor(section) {
    const body = this.parts.sections.get(section);
    return body === undefined ? undefined : new Cursor(body, 0, body.length);
  }

  listed(section, read) {
    return this.cursor(section)?.list(read) ?? [];
  }

  /** `main` first, then the imports in their order. */
  check() {
    const main = this.exports.find(({ name, kind }) => name === "main" && kind === OF_FUNCTION);
    const type = main === undefined ? undefined : this.typeOf(main.index);
    if (type === undefined || type.params.length > 0 || !same(type.results, [I32])) throw new LoadError("NoMain");
    this.imports.forEach(({ module, name, kind, type }, n) => {
      const known = kind === OF_FUNCTION ? importOf(module, name) : undefined;
      if (known === undefined || !same(known.params, this.types[type].params) || !same(known.results, this.types[type].results)) {
        throw new LoadError(`BadImport ${n}`);
      }
    });
  }

  typeOf(index) {
    const type = index < this.imports.length ? this.imports[index].type : this.functions[index - this.imports.length];
    return this.types[type];
  }

  /** Appends entries, of this number, to the list that is a section. */
  append(section, count, entries) {
    const old = this.cursor(section);
    const before = old === undefined ? 0 : old.u32();
    const rest = old === undefined ? [] : old.take(old.end - old.at);
    this.parts.sections.set(section, joined([u32(before + count), rest, entries]));
  }

  export(name, kind, index) {
    const text = new TextEncoder().encode(name);
    this.append(EXPORT, 1, [...u32(text.length), ...text, kind, ...u32(index)]);
  }

  changed() {
    const start = this.cursor(START)?.u32();
    this.depth = this.globals;
    this.place = this.globals + 1;
    this.left = this.globals + 2;
    const nought = [I32, 1, 0x41, 0, 0x0b];
    this.append(GLOBAL, 3, [...nought, ...nought, I64, 1, 0x42, ...s64(this.steps ?? 0), 0x0b]);
    this.export(OWN.depth, OF_GLOBAL, this.depth);
    this.export(OWN.place, OF_GLOBAL, this.place);
    this.export(OWN.steps, OF_GLOBAL, this.left);
    this.memory();
    if (start !== undefined) this.export(OWN.start, OF_FUNCTION, start);
    this.parts.sections.delete(START);
    this.code();
    return moduleOf(this.parts);
  }

  /** Exports the memory, and lets it grow to 256 pages at most. */
  memory() {
    const old = this.cursor(MEMORY);
    if (old === undefined || old.u32() === 0) return;
    const isBounded = old.byte() === 1;
    const least = old.u32();
    const most = isBounded ? old.u32() : MOST_PAGES;
    if (least > MOST_PAGES) throw new LoadError("TooLarge");
    this.parts.sections.set(MEMORY, Uint8Array.from([1, 1, ...u32(least), ...u32(Math.min(most, MOST_PAGES))]));
    this.export(OWN.memory, OF_MEMORY, 0);
  }

  code() {
    const old = this.cursor(CODE);
    const bodies = old.list(() => old.counted());
    const written = bodies.flatMap((body, n) => {
      const parts = joined(this.body(body, this.types[this.functions[n]]));
      return [u32(parts.length), parts];
    });
    this.parts.sections.set(CODE, joined([u32(bodies.length), ...written]));
  }

  /** Takes a step, and traps with -1 left if there is none. */
  tick() {
    if (this.steps === null) return [];
    const left = u32(this.left);
    const none = [0x23, ...left, 0x50, 0x04, EMPTY, 0x42, 0x7f, 0x24, ...left, 0x00, 0x0b];
    return [...none, 0x23, ...left, 0x42, 0x7f, 0x7c, 0x24, ...left];
  }

  /** The beginning of a function: its depth is counted, and the caller's place is saved in a local, if there is one for it. */
  enter(saved) {
    const depth = u32(this.depth);
    const deeper = [0x23, ...depth, 0x41, 1, 0x6a, 0x24, ...depth, 0x23, ...depth, 0x41, ...s64(MOST_FRAMES), 0x4b, 0x04, EMPTY, 0x00, 0x0b];
    const save = saved < MOST_LOCALS ? [0x23, ...u32(this.place), 0x21, ...u32(saved)] : [];
    return [...deeper, ...this.tick(), ...save];
  }

  leave(saved) {
    const depth = u32(this.depth);
    const restore = saved < MOST_LOCALS ? [0x20, ...u32(saved), 0x24, ...u32(this.place)] : [];
    return [...restore, 0x23, ...depth, 0x41, 0x7f, 0x6a, 0x24, ...depth];
  }

  /** A function's body in a block of its own, so that it is left in one way. */
  body(body, type) {
    if (type.results.length > 1) throw new LoadError("BadModule");
    const code = new Cursor(body, 0, body.length);
    const locals = code.list(() => {
      const count = code.u32();
      return { count, type: code.byte() };
    });
    const saved = locals.reduce((sum, { count }) => sum + count, type.params.length);
    const own = saved < MOST_LOCALS ? [{ count: 1, type: I32 }] : [];
    const declared = [...locals, ...own].flatMap(({ count, type: of }) => [...u32(count), of]);
    const block = [OP.block, type.results[0] ?? EMPTY];
    return [u32(locals.length + own.length), declared, this.enter(saved), block, ...this.instructions(code), this.leave(saved), [OP.end]];
  }

  instructions(code) {
    const out = [];
    const first = this.noted;
    let from = code.at;
    const put = (at, ...parts) => {
      out.push(code.bytes.subarray(from, at), ...parts);
      from = code.at;
    };
    for (let depth = 0; depth >= 0; ) {
      const at = code.at;
      const opcode = passInstruction(code);
      if (opcode === OP.block || opcode === OP.if) depth++;
      else if (opcode === OP.end) depth--;
      else if (opcode === OP.return) put(at, [OP.br, ...u32(depth)]);
      else if (opcode === OP.nop) put(at, [0x41, ...s64(++this.noted), 0x24, ...u32(this.place)], this.tick());
      else if (opcode === OP.loop) {
        depth++;
        put(code.at, this.tick());
      }
      if (depth > MOST_NESTED) throw new LoadError("TooLarge");
    }
    put(code.at);
    this.places.push(this.noted - first);
    return out;
  }
}

/** A module that is ready to run, as often as one likes. */
export class Loaded {
  constructor(module, places) {
    this.module = module;
    this.places = places;
  }

  /** The function and the number in it, from 0 on, of a program point; null if none was reached. */
  pointOf(place) {
    let left = place - 1;
    for (let n = 0; n < this.places.length; n++) {
      if (left >= 0 && left < this.places[n]) return { function: n, point: left };
      left -= this.places[n];
    }
    return null;
  }
}

/** A limit of steps as a module keeps it; null if there is none. */
function stepsOf(given) {
  if (given === null || given === Infinity) return null;
  const steps = BigInt(given);
  if (steps < 0n) throw new RangeError("a limit of steps is below 0");
  return steps < MOST_STEPS ? steps : MOST_STEPS;
}

/**
 * Makes the bytes of a module ready to run, with a limit of steps if `steps` is given. LoadError if it has other imports, or no `main`; the engine's
 * CompileError if it is no module.
 */
export function load(given, { steps = null } = {}) {
  const bytes = given instanceof Uint8Array ? given : new Uint8Array(given);
  if (bytes.length > MOST_BYTES) throw new LoadError("TooLarge");
  if (!WebAssembly.validate(bytes)) new WebAssembly.Module(bytes);
  const changes = new Changes(bytes, stepsOf(steps));
  changes.check();
  return new Loaded(new WebAssembly.Module(changes.changed()), changes.places);
}
