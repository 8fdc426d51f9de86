// Random modules that call imports in an order of their own, as no compiled script does. What a call answers is printed, or given to later calls.

import { IMPORTS } from "../js/core/imports.mjs";
import { joined } from "../js/core/bytes.mjs";
import { s64, u32 } from "../js/core/binary.mjs";
import { chanceOf } from "./random_scripts.mjs";

const I32 = 0x7f;
const NAMES = [...IMPORTS.keys()];
const TEXTS = [
  "", "a", "f", "g", "out", "b c", "12", "0.5", "-3", " 7 ", "%d|%s", "%5.2f", "%c%%", "[ab]+", "a|b*", "(", ",", "x", "FS", "\n", "&-&", "9007199254740993",
];
const SMALL = [0n, 1n, 1n, 2n, 3n, 5n, 7n];
const NUMBERS = [-1n, 40n, 1048576n, 1048577n, 2n ** 53n, -(2n ** 53n)];
const UNFIT = 0.001;
const RARELY = 0.03;
const CALLS = 70;
// calls that end most runs, or read all that there is
const RARE = new Set([
  "fail", "begin_end", "next_file", "free_array", "declare", "set_special", "start_assign", "pending_name", "pending_value", "line", "sub_result",
]);

class Calls {
  constructor(chance) {
    this.chance = chance;
    this.code = [];
    this.locals = 0;
    this.live = { h: [], a: [], t: [] };
    this.listed = 0;
    this.declared = 0;
    this.calls = 0;
  }

  below(n) {
    return Math.floor(this.chance() * n);
  }

  of(list) {
    return list[this.below(list.length)];
  }

  constant(n) {
    this.code.push(0x41, ...s64(n));
  }

  /** A local that holds a thing of a kind; if it is given up no later call gets it. */
  thing(kind, givesUp) {
    if (this.chance() < UNFIT) return this.constant(this.below(9));
    if (this.live[kind].length === 0) this.make(kind);
    const at = this.below(this.live[kind].length);
    const local = givesUp ? this.live[kind].splice(at, 1)[0] : this.live[kind][at];
    this.code.push(0x20, ...u32(local));
  }

  make(kind) {
    if (kind === "h") this.call(this.of(["lit", "lit", "num", "uninit"]));
    else this.call(kind === "a" ? "new_array" : "iter");
  }

  /** What a call needs before its arguments are on the stack: things to give, and values on the list. */
  prepare(args) {
    for (const letter of args) {
      const kind = { h: "h", k: "h", a: "a", t: "t" }[letter];
      if (kind !== undefined) while (this.live[kind].length < 4) this.make(kind);
    }
    if (args.includes("c")) while (this.listed < 4) this.call("arg");
  }

  argument(letter, name, count) {
    const fit = this.chance() >= UNFIT;
    switch (letter) {
      case "h": case "t": return this.thing(letter, letter === "h");
      case "k": return this.thing("h", false);
      case "a": return this.chance() < 0.2 ? this.constant(this.below(2)) : this.thing("a", false);
      case "r": return this.thing(name === "iter_free" ? "t" : "a", true);
      case "n": this.code.push(0x42, ...s64(fit ? this.of(this.chance() < 0.9 ? SMALL : NUMBERS) : 2n ** 53n + 1n)); return;
      case "p": return this.place(name);
      case "c": return this.constant(count);
      default: return this.constant(this.below({ o: 6, s: 14, b: 2, d: 3, m: 2 }[letter] ?? 17) + Number(!fit) * 20);
    }
  }

  place(name) {
    const n = name === "declare" ? 1 + (this.declared++ % 5) : this.below(TEXTS.length);
    this.constant(PLACES[n]);
    this.constant(TEXTS[n].length + Number(this.chance() < UNFIT) * 70_000);
  }

  call(name) {
    const { args, answer } = IMPORTS.get(name);
    this.prepare(args);
    this.calls++;
    const count = Math.min(this.listed, 1 + this.below(3));
    const to = args.includes("d") ? this.below(this.listed > count ? 3 : 1) : 0;
    for (const letter of args) {
      if (letter === "d") this.constant(to);
      else this.argument(letter, name, count);
    }
    this.code.push(0x10, ...u32(NAMES.indexOf(name)));
    if (args.includes("c")) this.listed -= count + Number(to > 0);
    if (name === "arg") this.listed++;
    this.answered(name, answer);
    const after = { sub: "sub_result", getline_var: "line", getline_var_file: "line" }[name];
    if (after !== undefined && this.chance() < 0.8) this.call(after);
  }

  /** Keeps a thing that was answered, and prints a number. */
  answered(name, answer) {
    const kind = name === "new_array" ? "a" : name === "iter" ? "t" : answer === "h" ? "h" : null;
    if (kind !== null) {
      this.code.push(0x21, ...u32(this.locals));
      this.live[kind].push(this.locals++);
    } else if (answer === "e") {
      // a script can not see which numbers handles have
      this.code.push(0x1a);
    } else if (answer !== "-") {
      if (answer !== "n") this.code.push(0xac);
      this.code.push(0x10, ...u32(NAMES.indexOf("num")), 0x10, ...u32(NAMES.indexOf("arg")));
      this.listed++;
    }
  }

  /** Calls at random, and prints the list. Numbers that say that a fault is kept are no fit for `num`, which then does nothing. */
  body() {
    while (this.calls < CALLS) {
      const name = this.of(NAMES);
      if (!RARE.has(name) || this.chance() < RARELY) this.call(name);
    }
    this.constant(this.listed);
    this.constant(0);
    this.code.push(0x10, ...u32(NAMES.indexOf("print")), 0x0b);
    return [1, ...u32(this.locals), I32, ...this.code];
  }
}

const PLACES = TEXTS.reduce((places, it) => [...places, places[places.length - 1] + it.length], [0]);

const listed = (all) => [...u32(all.length), ...all.flat()];
const named = (name) => [...u32(name.length), ...Buffer.from(name)];
const section = (id, body) => [id, ...u32(body.length), ...body];

function moduleOf(body) {
  const types = [...IMPORTS.values()].map(({ params, results }) => [0x60, ...listed(params), ...listed(results)]);
  const imports = NAMES.map((name, n) => [...named("awk2"), ...named(name), 0, ...u32(n)]);
  const main = u32(NAMES.length);
  const text = Buffer.from(TEXTS.join(""), "latin1");
  return joined([
    [0, 0x61, 0x73, 0x6d, 1, 0, 0, 0], section(1, listed([...types, [0x60, 0, 1, I32]])), section(2, listed(imports)), section(3, listed([main])),
    section(5, listed([[0, 1]])), section(7, listed([[...named("main"), 0, ...main]])), section(10, listed([[...u32(body.length), ...body]])),
    section(11, listed([[0, 0x41, 0, 0x0b, ...u32(text.length), ...text]])),
  ].map((it) => Uint8Array.from(it)));
}

/** So many modules by a seed. */
export function randomCalls(count, seed) {
  const chance = chanceOf(seed);
  return Array.from({ length: count }, () => moduleOf(new Calls(chance).body()));
}
