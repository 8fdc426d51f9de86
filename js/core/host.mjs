// The host of a run: its state, and what each import does. docs/EMBEDDING.md says what is due.

import { bytesOfText, checked, textOfBytes } from "./bytes.mjs";
import { formatted } from "./format.mjs";
import { IMPORTS, moduleObjects } from "./imports.mjs";
import { MainInput, ReadError, Reader } from "./input.mjs";
import { Names } from "./names.mjs";
import { Record, fieldNumber } from "./record.mjs";
import { expressionOf, part, piecesOf, substituted } from "./texts.mjs";
import {
  FAULTS, Fault, MOST, TEXT_LIMIT, UNINIT, inRange, limited, num, numberOf, order, power, strnum, text, textOf, truthOf,
} from "./values.mjs";

const LEAST_I64 = -(2n ** 63n);
const MOST_NUMBERS = 2 ** 31 - 1;
const MOST_STREAMS = 256;

/** The module is at odds with the host, and its run is over. */
export class Trap extends Error {}

/** The host has no number left. */
export class NoMemory extends Error {}

const SPECIALS = "ARGC CONVFMT FILENAME FNR FS NF NR OFMT OFS ORS RLENGTH RS RSTART SUBSEP".split(" ");

function specialsAtStart(operands) {
  const nought = num(0n);
  return {
    ARGC: num(BigInt(operands + 1)), CONVFMT: text("%.6g"), FILENAME: UNINIT, FNR: nought, FS: text(" "), NR: nought, OFMT: text("%.6g"),
    OFS: text(" "), ORS: text("\n"), RLENGTH: num(-1n), RS: text("\n"), RSTART: nought, SUBSEP: text("\x1c"),
  };
}

const COMPARISONS = [(o) => o < 0, (o) => o <= 0, (o) => o === 0, (o) => o !== 0, (o) => o > 0, (o) => o >= 0];

/** What small numbers say, by the letter of the argument. */
const SMALL = {
  o: (word) => COMPARISONS[word], s: (word) => SPECIALS[word], f: (word) => FAULTS[word - 1],
  b: (word) => [false, true][word], d: (word) => [0, 1, 2][word], m: (word) => [0, 1][word],
};

/** Imports that work after a fault is kept. */
const LETS_GO = new Set(["drop", "iter_free", "free_array"]);

/** What numbers stand for. A number that was given up comes again. */
class Table {
  constructor(first) {
    this.held = first;
    this.live = first.length;
    this.next = first.length;
    this.step = 1;
    this.free = [];
  }

  get(number) {
    const held = this.held[number];
    if (held === undefined) throw new Trap("BadHandle");
    return held;
  }

  take(number) {
    const held = this.get(number);
    this.held[number] = undefined;
    this.live--;
    this.free.push(number);
    return held;
  }

  put(held) {
    const number = this.free.pop() ?? this.next;
    if (number >= MOST_NUMBERS) throw new NoMemory("NoMemory");
    if (number === this.next) this.next += this.step;
    this.held[number] = held;
    this.live++;
    return number;
  }
}

/** The state of a host, and its imports. It serves one run. */
export class Host {
  /** `invocation` has operands, assigns and environment; `files` are what a script reaches outside. */
  constructor({ operands = [], assigns = [], environment = [] }, files) {
    this.files = files;
    const argv = new Map(["awk", ...operands].map((operand, n) => [String(n), strnum(operand)]));
    const environ = new Map(environment.map(([name, value]) => [name, strnum(value)]));
    this.values = new Table([]);
    this.arrays = new Table([argv, environ]);
    this.iterators = new Table([]);
    this.specials = specialsAtStart(operands.length);
    this.names = new Names(assigns, (name, value) => SPECIALS.includes(name) && (this.setSpecial(name, value), true));
    this.main = new MainInput(this);
    this.input = null;
    this.inEnd = false;
    this.record = new Record();
    this.readers = new Map();
    this.writers = new Map();
    this.list = [];
    this.line = null;
    this.result = null;
    this.fault = null;
    // set by the run: how the module's memory is found, and the program point that the run has reached
    this.memory = () => null;
    this.place = () => 0;
    this.faultPlace = 0;
    const texts = [...operands, ...assigns.flat(), ...environment.flat()];
    if (texts.some((t) => checked(t).length > TEXT_LIMIT)) this.fault = "TextLimit";
  }

  standard() {
    this.input ??= new Reader(this.files.standard());
    return this.input;
  }

  special(name) {
    return textOf(this.specials[name]);
  }

  getSpecial(name) {
    return name === "NF" ? num(BigInt(this.record.count())) : this.specials[name];
  }

  setSpecial(name, value) {
    if (name === "NF") this.record.setCount(fieldNumber(numberOf(value)), this.special("OFS"));
    else this.specials[name] = value;
  }

  setRecord(t) {
    this.record.setWhole(t, this.special("FS"), this.special("RS"));
  }

  setField(number, value) {
    const n = fieldNumber(number);
    if (n === 0) this.setRecord(textOf(value));
    else this.record.setField(n, value, this.special("OFS"));
  }

  element(array, key) {
    const name = textOf(key);
    if (!array.has(name)) array.set(name, UNINIT);
    return array.get(name);
  }

  match(value, ere) {
    const match = expressionOf(textOf(ere)).firstMatch(textOf(value), 0);
    const start = BigInt(match === null ? 0 : match[0] + 1);
    this.specials.RSTART = num(start);
    this.specials.RLENGTH = num(match === null ? -1n : BigInt(match[1] - match[0]));
    return start;
  }

  substitute(ere, by, target, all) {
    const [t, count] = substituted(expressionOf(textOf(ere)), textOf(by), textOf(target), all);
    this.result = text(t);
    return BigInt(count);
  }

  split(value, array, separator, isEre) {
    const pieces = piecesOf(textOf(separator), isEre, false, textOf(value));
    array.clear();
    pieces.forEach((piece, n) => array.set(String(n + 1), strnum(piece)));
    return BigInt(pieces.length);
  }

  // Input. `keep` takes a record.

  keepRecord = (t) => this.setRecord(t);
  keepLine = (t) => { this.line = strnum(t); };

  count(name) {
    this.specials[name] = num(inRange(numberOf(this.specials[name]) + 1n));
  }

  noPending() {
    if (this.names.pending !== null) throw new Trap("BadArgument");
  }

  readMain(keep, loop) {
    this.noPending();
    if (this.inEnd && !loop) return 0;
    let got;
    try {
      got = this.main.read();
    } catch (error) {
      if (!(error instanceof ReadError)) throw error;
      got = { how: "failed" };
    }
    if (got.record !== undefined) {
      this.count("NR");
      this.count("FNR");
      keep(got.record);
      return 1;
    }
    if (loop && got.how === "unopened") throw new Fault("OpenInput");
    if (loop && got.how === "failed") throw new Fault("ReadFailed");
    return { end: 0, pending: 2, unopened: 3, failed: 3 }[got.how];
  }

  /** A reader of a file; null if it does not open. */
  reader(name) {
    const source = this.files.open(name);
    return source === null ? null : new Reader(source);
  }

  hasRoom() {
    if (this.readers.size + this.writers.size >= MOST_STREAMS) throw new Fault("TooManyStreams");
  }

  readFile(value, keep) {
    const name = textOf(value);
    let reader = this.readers.get(name) ?? null;
    if (reader === null) {
      this.hasRoom();
      reader = this.reader(name);
      if (reader === null) return 3;
      this.readers.set(name, reader);
    }
    try {
      const record = reader.next(this.special("RS"));
      if (record === null) return 0;
      keep(record);
      return 1;
    } catch (error) {
      if (error instanceof ReadError) return 3;
      throw error;
    }
  }

  // Output.

  /** The last values of the list; the name of a file is one more, and the last of them. */
  taken(count, to, least) {
    const wanted = to === 0 ? count : count + 1;
    if (wanted > this.list.length || count < least) throw new Trap("BadArgument");
    const values = this.list.splice(this.list.length - wanted, wanted);
    return { name: to === 0 ? null : textOf(values.pop()), values };
  }

  outlet(name, append) {
    const open = this.writers.get(name);
    if (open !== undefined) return open;
    this.hasRoom();
    const made = this.files.create(name, append);
    if (made === null) throw new Fault("OpenOutput");
    this.writers.set(name, made);
    return made;
  }

  write(name, append, t) {
    const outlet = name === null ? this.files.output : this.outlet(name, append);
    if (t === "") return;
    try {
      outlet.write(bytesOfText(t));
    } catch {
      throw new Fault("WriteFailed");
    }
  }

  print(count, to) {
    const { name, values } = this.taken(count, to, 0);
    this.write(name, to === 2, values.map(textOf).join(this.special("OFS")) + this.special("ORS"));
  }

  printf(count, to) {
    const { name, values } = this.taken(count, to, 1);
    this.write(name, to === 2, formatted(textOf(values[0]), values.slice(1)));
  }

  sprintf(count) {
    const { values } = this.taken(count, 0, 1);
    return text(formatted(textOf(values[0]), values.slice(1)));
  }

  close(value) {
    const name = textOf(value);
    const open = [this.readers.get(name), this.writers.get(name)].filter((it) => it !== undefined);
    for (const it of open) it.close?.();
    this.readers.delete(name);
    this.writers.delete(name);
    return open.length > 0 ? 0 : 3;
  }

  /** All that was printed is out by now; the empty text names all files. */
  flush(value) {
    const name = textOf(value);
    return name === "" || this.writers.has(name) ? 0 : 3;
  }

  /** Closes all that is open. */
  release() {
    for (const it of [...this.readers.values(), ...this.writers.values()]) it.close?.();
    this.readers.clear();
    this.writers.clear();
    if (this.main.reader !== null) this.main.leave();
  }

  // Names.

  declare(name, kind) {
    if (this.names.kinds.has(name)) throw new Trap("BadArgument");
    this.names.kinds.set(name, { number: this.names.kinds.size, kind });
  }

  pending() {
    if (this.names.pending === null) throw new Trap("BadArgument");
    return this.names.pending;
  }

  pendingValue() {
    const { value } = this.pending();
    this.names.pending = null;
    return value;
  }

  once(field) {
    const value = this[field];
    if (value === null) throw new Trap("BadArgument");
    this[field] = null;
    return value;
  }

  startAssign() {
    this.noPending();
    return this.names.start();
  }

  freeArray(number) {
    this.arrays.get(number);
    if (number < 2) throw new Trap("BadArgument");
    this.arrays.take(number);
  }

  /** What each import does with what its words stand for. */
  acts() {
    return { ...this.actsOfValues(), ...this.actsOfTexts(), ...this.actsOfStreams() };
  }

  actsOfValues() {
    return {
      num: (n) => num(n),
      lit: (t) => text(t),
      uninit: () => UNINIT,
      dup: (v) => v,
      to_num: (v) => numberOf(v),
      int_of: (v) => numberOf(v, true),
      truth: (v) => Number(truthOf(v)),
      compare: (holds, v, w) => Number(holds(order(v, w))),
      concat: (v, w) => text(limited(textOf(v) + textOf(w))),
      pow: (n, m) => power(n, m),
      fail: (fault) => { throw new Fault(fault); },
      get_special: (name) => this.getSpecial(name),
      set_special: (name, v) => this.setSpecial(name, v),
      field: (n) => this.record.field(fieldNumber(n)),
      set_field: (n, v) => this.setField(n, v),
      new_array: () => this.arrays.put(new Map()),
      elem: (a, v) => this.element(a, v),
      set_elem: (a, v, w) => a.set(textOf(v), w),
      has: (a, v) => Number(a.has(textOf(v))),
      delete: (a, v) => a.delete(textOf(v)),
      join: (v, w) => text(limited(textOf(v) + this.special("SUBSEP") + textOf(w))),
      iter: (a) => this.iterators.put({ keys: [...a.keys()], at: 0 }),
      iter_next: (t) => (t.at < t.keys.length ? text(t.keys[t.at++]) : null),
      clear: (a) => a.clear(),
      drop: () => {},
      iter_free: (t) => { this.iterators.take(t); },
      free_array: (a) => this.freeArray(a),
    };
  }

  actsOfTexts() {
    return {
      length: (v) => BigInt(textOf(v).length),
      matches: (v, ere) => Number(expressionOf(textOf(ere)).test(textOf(v))),
      match: (v, ere) => this.match(v, ere),
      sub: (ere, by, target, all) => this.substitute(ere, by, target, all),
      sub_result: () => this.once("result"),
      split: (v, a, separator, isEre) => this.split(v, a, separator, isEre),
      substr: (v, m, n) => text(part(textOf(v), m, m + n)),
      substr_from: (v, m) => text(part(textOf(v), m, MOST)),
      index: (v, w) => BigInt(textOf(w) === "" ? 0 : textOf(v).indexOf(textOf(w)) + 1),
      lower: (v) => text(textOf(v).replace(/[A-Z]+/g, (letters) => letters.toLowerCase())),
      upper: (v) => text(textOf(v).replace(/[a-z]+/g, (letters) => letters.toUpperCase())),
      arg: (v) => { this.list.push(v); },
      sprintf: (count) => this.sprintf(count),
    };
  }

  actsOfStreams() {
    return {
      next_main: () => this.readMain(this.keepRecord, true),
      getline: () => this.readMain(this.keepRecord, false),
      getline_var: () => this.readMain(this.keepLine, false),
      getline_file: (v) => this.readFile(v, this.keepRecord),
      getline_var_file: (v) => this.readFile(v, this.keepLine),
      line: () => this.once("line"),
      declare: (name, kind) => this.declare(name, kind),
      start_assign: () => this.startAssign(),
      pending_name: () => this.pending().number,
      pending_value: () => this.pendingValue(),
      begin_end: () => { this.inEnd = true; },
      close: (v) => this.close(v),
      print: (count, to) => this.print(count, to),
      printf: (count, to) => this.printf(count, to),
      next_file: () => this.main.skip(),
      flush: (v) => this.flush(v),
    };
  }

  /** The text at a place in the module's memory. */
  textAt(at, length) {
    const memory = this.memory();
    const bytes = memory === null ? new Uint8Array(0) : new Uint8Array(memory.buffer);
    const end = (at >>> 0) + (length >>> 0);
    if (end > bytes.length) throw new Trap("BadPointer");
    return textOfBytes(bytes, at >>> 0, end);
  }

  /** What the word of an argument stands for; handles are consumed. */
  decode(letter, word) {
    switch (letter) {
      case "h": return this.values.take(word);
      case "k": return this.values.get(word);
      case "a": return this.arrays.get(word);
      case "t": return this.iterators.get(word);
      case "c": return word >>> 0;
      case "r": return word;
      case "n":
        if (word < -MOST || word > MOST) throw new Trap("BadArgument");
        return word;
    }
    const says = SMALL[letter](word);
    if (says === undefined) throw new Trap("BadArgument");
    return says;
  }

  /** The arguments that words stand for, from left to right. */
  decoded(letters, words) {
    const given = [];
    let at = 0;
    for (const letter of letters) given.push(letter === "p" ? this.textAt(words[at++], words[at++]) : this.decode(letter, words[at++]));
    return given;
  }

  encode(letter, answer) {
    switch (letter) {
      case "h": return this.values.put(answer);
      case "e": return answer === null ? -2 : this.values.put(answer);
      case "c": return 0;
      case "-": return undefined;
      default: return answer;
    }
  }

  /** After a kept fault an import only refuses, unless it lets something go; a fault that it meets is kept. */
  call(name, { args, answer }, act, words) {
    const refusal = answer === "-" ? undefined : answer === "n" ? LEAST_I64 : -1;
    if (this.fault !== null && !LETS_GO.has(name)) return refusal;
    try {
      return this.encode(answer, act(...this.decoded(args, words)));
    } catch (error) {
      if (!(error instanceof Fault)) throw error;
      this.fault = error.message;
      this.faultPlace = this.place();
      return refusal;
    }
  }

  /** The imports, by the names of their modules. */
  imports() {
    const acts = this.acts();
    return moduleObjects((name) => (...words) => this.call(name, IMPORTS.get(name), acts[name], words));
  }
}
