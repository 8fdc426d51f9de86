#!/usr/bin/env node
// tests/where/sections.mjs [PROGRAM]: what `awkwasm compile --lines` appends, against the names and lines that the walk of js/ finds, which is another implementation.
//
// Of the scripts of examples/ and of 300 random ones: the bytes begin with those of `compile` without the option; behind them are two custom sections and nothing
// else; `name` has the script's functions and `main`, numbered after the imports; `awk.lines` has the line of each program point; the engine of Node.js takes the
// module; and `exec` ends as without them. Last, a trace of Node.js names `main`. PROGRAM is crates/awkwasm/out/awkwasm unless it is given.

import { spawnSync } from "node:child_process";
import { mkdtempSync, readFileSync, readdirSync, realpathSync, rmSync, writeFileSync } from "node:fs";
import { tmpdir } from "node:os";
import { fileURLToPath } from "node:url";

import { linesOf } from "../../js/core/places.mjs";
import { randomScripts } from "../random_scripts.mjs";

const top = fileURLToPath(new URL("../..", import.meta.url));
const program = realpathSync(process.argv[2] ?? `${top}crates/awkwasm/out/awkwasm`);
const RANDOM = 300;
const SEED = 11;
const INPUT = "a b\nb c d\n\n12 0.5\n";

/** Bytes that are read from the left. */
class Reader {
  constructor(bytes) {
    this.bytes = bytes;
    this.at = 0;
  }

  byte() {
    if (this.at === this.bytes.length) throw new Error("the bytes end too soon");
    return this.bytes[this.at++];
  }

  number() {
    let [n, shift] = [0, 0];
    for (;;) {
      const byte = this.byte();
      n += (byte & 127) * 2 ** shift;
      if (byte < 128) return n;
      shift += 7;
    }
  }

  counted() {
    const length = this.number();
    const from = this.at;
    this.at += length;
    if (this.at > this.bytes.length) throw new Error("the bytes end too soon");
    return this.bytes.subarray(from, this.at);
  }

  text() {
    return Buffer.from(this.counted()).toString("latin1");
  }

  list(item) {
    return Array.from({ length: this.number() }, item);
  }

  end() {
    if (this.at !== this.bytes.length) throw new Error("bytes are left over");
  }
}

/** The custom sections that some bytes are: names and contents. */
function customSections(bytes) {
  const found = [];
  const reader = new Reader(bytes);
  while (reader.at < bytes.length) {
    if (reader.byte() !== 0) throw new Error("a section that is not custom");
    const contents = new Reader(reader.counted());
    const name = contents.text();
    found.push({ name, rest: contents.bytes.subarray(contents.at) });
  }
  return found;
}

/** The functions that the section `name` names: numbers and names. */
function namesOf(bytes) {
  const reader = new Reader(bytes);
  if (reader.byte() !== 1) throw new Error("no subsection of functions");
  const functions = new Reader(reader.counted());
  reader.end();
  const found = functions.list(() => ({ number: functions.number(), name: functions.text() }));
  functions.end();
  return found;
}

/** The table of `awk.lines`. */
function tableOf(bytes) {
  const reader = new Reader(bytes);
  const found = reader.list(() => ({ name: reader.text(), lines: reader.list(() => reader.number()) }));
  reader.end();
  return found;
}

function answer(module, input) {
  const { status, stdout, stderr } = spawnSync(program, ["exec", module], { cwd: work, input: Buffer.from(input, "latin1"), encoding: "latin1" });
  return JSON.stringify([status, stdout, stderr]);
}

function compiled(words, name) {
  const out = `${work}/${name}`;
  rmSync(out, { force: true });
  return spawnSync(program, ["compile", ...words, `${work}/script`, out]).status === 0 ? readFileSync(out) : null;
}

/** What is wrong with a script's module, or null; undefined of a script that is refused. */
function wrongOf({ script, input }) {
  writeFileSync(`${work}/script`, script, "latin1");
  const [plain, lined] = [compiled([], "plain.wasm"), compiled(["--lines"], "lined.wasm")];
  if ((plain === null) !== (lined === null)) return "one of them is refused";
  if (plain === null) return undefined;
  if (!lined.subarray(0, plain.length).equals(plain)) return "the bytes before the sections";
  const sections = customSections(lined.subarray(plain.length));
  if (sections.map(({ name }) => name).join() !== "name,awk.lines") return "the sections";
  const imports = WebAssembly.Module.imports(new WebAssembly.Module(plain)).length;
  const due = linesOf(script);
  const names = due.map(({ name }, n) => ({ number: imports + n, name }));
  if (JSON.stringify(namesOf(sections[0].rest)) !== JSON.stringify(names)) return "the names";
  const table = tableOf(sections[1].rest);
  if (JSON.stringify(table) !== JSON.stringify(due.map(({ name, lines }) => ({ name, lines })))) return `the lines: ${JSON.stringify(table)}`;
  const taken = new WebAssembly.Module(lined);
  if (WebAssembly.Module.customSections(taken, "awk.lines").length !== 1) return "the engine's sections";
  if (answer(`${work}/plain.wasm`, input) !== answer(`${work}/lined.wasm`, input)) return "the run";
  return null;
}

function* scripts() {
  for (const entry of readdirSync(`${top}examples`, { withFileTypes: true })) {
    if (!entry.isDirectory() || !readdirSync(`${top}examples/${entry.name}`).includes("script.awk")) continue;
    const read = (name) => readFileSync(`${top}examples/${entry.name}/${name}`, "latin1");
    yield { name: entry.name, script: read("script.awk"), input: read("input") };
  }
  for (const [n, script] of randomScripts(RANDOM, SEED).entries()) yield { name: `random script ${n}`, script, input: INPUT };
}

/** What a trace of the engine says where an import that `main` calls throws. */
function traceOf(module) {
  const asked = WebAssembly.Module.imports(module);
  const imports = { awk2: {} };
  for (const { name } of asked) imports.awk2[name] = () => { throw new Error("called"); };
  try {
    new WebAssembly.Instance(module, imports).exports.main();
    return "";
  } catch (error) {
    return error.stack;
  }
}

const work = mkdtempSync(`${tmpdir()}/sections.`);
let [tried, refused, wrong] = [0, 0, 0];
try {
  for (const it of scripts()) {
    const why = wrongOf(it);
    if (why === undefined) {
      refused++;
      continue;
    }
    tried++;
    if (why !== null) {
      wrong++;
      console.log(`${it.name}: ${why}\n${it.script}`);
    }
  }
  writeFileSync(`${work}/script`, "BEGIN { print 1 }\n");
  if (!/ at main \(/.test(traceOf(new WebAssembly.Module(compiled(["--lines"], "lined.wasm"))))) {
    wrong++;
    console.log("no trace names `main`");
  }
} finally {
  rmSync(work, { recursive: true });
}
console.log(`${tried} modules, ${refused} scripts refused, ${wrong} wrong`);
process.exitCode = wrong === 0 && tried > 0 ? 0 : 1;
