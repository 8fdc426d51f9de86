// Reads a module that awkwasm compiled, and writes it again with further imports, globals and functions. See instrumented.mjs.

export const I32 = 0x7f;
export const I64 = 0x7e;

/** A number below 2^32, as LEB128. */
export function u32(number) {
  const bytes = [];
  for (; number >= 128; number >>>= 7) bytes.push((number & 127) | 128);
  return [...bytes, number];
}

/** A signed number of 32 bits, as LEB128. */
function s32(number) {
  const bytes = [];
  for (; number < -64 || number > 63; number >>= 7) bytes.push((number & 127) | 128);
  return [...bytes, number & 127];
}

const sized = (bytes) => [...u32(bytes.length), ...bytes];
const list = (items) => [...u32(items.length), ...items.flat()];
const named = (name) => sized([...Buffer.from(name)]);

/** The instructions that are added, as bytes. */
export const code = {
  call: (place) => [0x10, ...u32(place)],
  constant: (number) => [0x41, ...s32(number)],
  get: (local) => [0x20, ...u32(local)],
  set: (local) => [0x21, ...u32(local)],
  tee: (local) => [0x22, ...u32(local)],
  global: (place) => [0x23, ...u32(place)],
  setGlobal: (place) => [0x24, ...u32(place)],
  /** A loop that leaves values of these types, and goes on where the number that it leaves above them is not 0. */
  loop: (results, ...body) => [0x03, ...(results.length > 0 ? results : [0x40]), ...body.flat(), 0x0d, 0, 0x0b],
  /** Ends the run in a trap where the number below is not 0. */
  trapIf: [0x04, 0x40, 0x00, 0x0b],
  drop: [0x1a],
  add: [0x6a],
  subtract: [0x6b],
  differ: [0x47],
  less: [0x49],
  or: [0x72],
  extend: [0xad],
  nought64: [0x42, 0],
};

class Cursor {
  constructor(bytes) {
    this.bytes = bytes;
    this.at = 0;
  }

  get isOver() {
    return this.at >= this.bytes.length;
  }

  byte() {
    return this.bytes[this.at++];
  }

  take(count) {
    this.at += count;
    return this.bytes.subarray(this.at - count, this.at);
  }

  since(from) {
    return this.bytes.subarray(from, this.at);
  }

  passIntegers(count) {
    for (let left = count; left > 0; ) left -= this.byte() < 128 ? 1 : 0;
  }

  u32() {
    let number = 0;
    for (let shift = 0; ; shift += 7) {
      const byte = this.byte();
      number += (byte & 127) * 2 ** shift;
      if (byte < 128) return number;
    }
  }

  name() {
    return this.take(this.u32()).toString();
  }

  list(one) {
    return Array.from({ length: this.u32() }, one);
  }
}

/** How many integers stand behind an operation; behind `br_table` there are as many as the first says. */
function integersBehind(operation) {
  if (operation === 0x11 || (operation >= 0x28 && operation <= 0x3e)) return 2;
  const hasOne = [[0x02, 0x04], [0x0c, 0x0d], [0x20, 0x24], [0x3f, 0x42]].some(([from, to]) => from <= operation && operation <= to);
  return hasOne ? 1 : 0;
}

/** A function's body whose calls are of the functions at other places. */
function renumbered(body, placeOf) {
  const cursor = new Cursor(Buffer.from(body));
  cursor.list(() => [cursor.u32(), cursor.byte()]);
  const out = [...cursor.since(0)];
  while (!cursor.isOver) {
    const from = cursor.at;
    const operation = cursor.byte();
    if (operation === 0x10) {
      out.push(...code.call(placeOf(cursor.u32())));
      continue;
    }
    cursor.passIntegers(operation === 0x0e ? cursor.u32() + 1 : integersBehind(operation));
    out.push(...cursor.since(from));
  }
  return out;
}

/** A compiled module: it has no table and no start function, and exports `main` alone. */
export class Module {
  /** The module of these bytes, with these imports beside its own: `{ NAME: [parameters, results] }`. */
  constructor(bytes, imports) {
    this.sections = new Map();
    const whole = new Cursor(bytes);
    whole.take(8);
    while (!whole.isOver) {
      const id = whole.byte();
      this.sections.set(id, whole.take(whole.u32()));
    }
    if ([0, 4, 8, 9].some((id) => this.sections.has(id))) throw new Error("not a module of awkwasm");
    this.readTypes();
    this.readFunctions();
    this.own = this.imports.length;
    this.addImports(imports);
  }

  cursor(id) {
    return new Cursor(this.sections.get(id) ?? Buffer.from([0]));
  }

  readTypes() {
    const types = this.cursor(1);
    this.types = types.list(() => (types.byte(), [types.list(() => types.byte()), types.list(() => types.byte())]));
    const imports = this.cursor(2);
    this.imports = imports.list(() => ({ from: imports.name(), name: imports.name(), kind: imports.byte(), type: imports.u32() }));
    const globals = this.cursor(6);
    this.globals = globals.u32();
    this.globalBytes = [...globals.take(globals.bytes.length - globals.at)];
  }

  readFunctions() {
    const types = this.cursor(3);
    const bodies = this.cursor(10);
    const exports = this.cursor(7);
    this.functions = types.list(() => ({ type: types.u32() }));
    bodies.list(() => bodies.take(bodies.u32())).forEach((body, n) => (this.functions[n].body = body));
    const [main, ...others] = exports.list(() => ({ name: exports.name(), kind: exports.byte(), place: exports.u32() }));
    if (main.name !== "main") throw new Error("no main");
    if (others.some((it) => it.kind === 0)) throw new Error("another function is exported");
    this.main = main.place;
    this.otherExports = others;
  }

  addImports(wanted) {
    for (const [name, type] of Object.entries(wanted)) {
      if (!this.imports.some((it) => it.name === name)) this.imports.push({ from: "awk2", name, kind: 0, type: this.types.push(type) - 1 });
    }
    const added = this.imports.length - this.own;
    this.renumber((place) => (place < this.own ? place : place + added));
    this.main += added;
  }

  /** Has all calls go to other places. */
  renumber(placeOf) {
    for (const it of this.functions) it.body = renumbered(it.body, placeOf);
  }

  /** The call of an import. */
  call(name) {
    return code.call(this.imports.findIndex((it) => it.name === name));
  }

  /** Where the next function that is added will stand. */
  get next() {
    return this.imports.length + this.functions.length;
  }

  /** Adds a global of 32 bits that is 0 at first. */
  addGlobal() {
    this.globalBytes.push(I32, 1, ...code.constant(0), 0x0b);
    return this.globals++;
  }

  /** Adds a function with so many locals of 32 bits beside its parameters. */
  addFunction(type, locals, ...body) {
    this.functions.push({ type, body: [...(locals > 0 ? [1, ...u32(locals), I32] : [0]), ...body.flat(), 0x0b] });
    return this.next - 1;
  }

  /** Has another function be `main`, with so many locals of 32 bits. */
  setMain(locals, ...body) {
    const type = this.types.push([[], [I32]]) - 1;
    this.main = this.addFunction(type, locals, ...body);
  }

  write() {
    const sections = new Map(this.sections);
    sections.set(1, list(this.types.map(([parameters, results]) => [0x60, ...sized(parameters), ...sized(results)])));
    sections.set(2, list(this.imports.map((it) => [...named(it.from), ...named(it.name), it.kind, ...u32(it.type)])));
    sections.set(3, list(this.functions.map((it) => u32(it.type))));
    sections.set(6, [...u32(this.globals), ...this.globalBytes]);
    const exports = [{ name: "main", kind: 0, place: this.main }, ...this.otherExports];
    sections.set(7, list(exports.map((it) => [...named(it.name), it.kind, ...u32(it.place)])));
    sections.set(10, list(this.functions.map((it) => sized(it.body))));
    const inOrder = [...sections].sort(([a], [b]) => a - b);
    return Buffer.from([0, 0x61, 0x73, 0x6d, 1, 0, 0, 0, ...inOrder.flatMap(([id, bytes]) => [id, ...sized(bytes)])]);
  }
}
