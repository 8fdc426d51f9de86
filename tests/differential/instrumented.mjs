// The rows of test_scripts that run instrumented modules: what would else need a host around the host is told by the module itself. The module that awkwasm
// makes of a script is written with a `main` that calls the script's own one, in one of three ways:
//
// - numbers: before the script begins, values, arrays and iterators are made and some are let go, so that the script's have the numbers 1000, 1007, 1014, ..
//   The host gives the number that was let go last first, so number n of a plain run is 1000 + 7n here, as long as no more are alive at once than were let go;
//   a host that does not begin with 1000 and 1007 ends in a trap. These calls take as many steps in each run: so the script takes N steps where the
//   instrumented module takes these and N, and with one less either is out of steps.
// - counted: each import is called by a function that counts the calls, and their number is printed at the end.
// - alive: after the script's end 64 values are made. As fewer numbers than that are free again, the last one is 63 more than the values that were alive. The
//   same is done with arrays and iterators, and the three counts are printed.
//
//     node instrumented.mjs [PROGRAM]            compares the rows with crates/test_scripts: they must stand there side by side, and so must their answers
//     node instrumented.mjs rows [PROGRAM]       prints the rows, for crates/test_scripts/stdin
//     node instrumented.mjs answers [PROGRAM]    prints their answers, for crates/test_scripts/stdout
//
// PROGRAM is awkwasm, which compiles the scripts, and finds N; without it ../../awkwasm is taken. Each instrumented module is run here over the host of
// js/core too. The gate runs the rows alone.

import { execFileSync, spawnSync } from "node:child_process";
import { mkdtempSync, readFileSync, rmSync, writeFileSync } from "node:fs";
import { tmpdir } from "node:os";
import { argv, exit } from "node:process";
import { fileURLToPath } from "node:url";

import { Host, filesInMemory, run as runModule, textOfBytes } from "../../js/core/index.mjs";
import { I32, I64, Module, code } from "./wasm.mjs";

const top = fileURLToPath(new URL("../..", import.meta.url));

/** The imports that are called beside the script's own. */
const IMPORTS = {
  num: [[I64], [I32]], drop: [[I32], []], new_array: [[], [I32]], free_array: [[I32], []], iter: [[I32], [I32]], iter_free: [[I32], []],
  arg: [[I32], []], print: [[I32, I32], [I32]],
};

function moduleWith(bytes, ...names) {
  return new Module(bytes, Object.fromEntries(names.map((name) => [name, IMPORTS[name]])));
}

/** How many values, arrays and iterators there are from the start: ARGV and ENVIRON are arrays. */
const THERE = [0, 2, 0];

/** How a value, an array and an iterator are made and let go. */
function tablesOf(module) {
  return [
    { make: [...code.nought64, ...module.call("num")], free: module.call("drop") },
    { make: module.call("new_array"), free: module.call("free_array") },
    { make: [...code.constant(0), ...module.call("iter")], free: module.call("iter_free") },
  ];
}

const TABLES = ["num", "drop", "new_array", "free_array", "iter", "iter_free"];

/** Prints the numbers that these instructions leave, with spaces between. */
function printed(module, ...left) {
  const args = left.flatMap((it) => [...it, ...code.extend, ...module.call("num"), ...module.call("arg")]);
  return [...args, ...code.constant(left.length), ...code.constant(0), ...module.call("print"), ...code.drop];
}

/** How many calls print one number. */
const PRINTING = 3;

const FIRST = 1000;
const APART = 7;
const GIVEN = 16;
const LAST = FIRST + APART * GIVEN;

/**
 * Makes things up to the number before LAST, and lets those numbered FIRST, FIRST + APART, .. go, the greatest of them first. Then two more are made: they
 * must have the first two of these numbers, and are let go.
 */
function spaced({ make, free }) {
  return [
    ...code.loop([], make, code.constant(LAST - 1), code.differ),
    ...code.constant(LAST), ...code.set(0),
    ...code.loop([], code.get(0), code.constant(APART), code.subtract, code.tee(0), free, code.get(0), code.constant(FIRST), code.differ),
    ...make, ...code.set(0), ...make, ...code.set(1),
    ...code.get(0), ...code.constant(FIRST), ...code.differ, ...code.get(1), ...code.constant(FIRST + APART), ...code.differ, ...code.or, ...code.trapIf,
    ...code.get(1), ...free, ...code.get(0), ...free,
  ];
}

/**
 * The steps that `spaced` takes where so many things are there from the start. A turn of the first loop takes 3: `loop`, the call and the comparison; one of
 * the second 7: those, `local.get` twice, the subtraction and `local.tee`. At the end of each loop `br_if` and leaving the loop are one each. `local.set` in
 * between is one. Of the rest each instruction is one, and to leave `if` is one more. Constants are no steps, nor is a branch back.
 */
const stepsOfSpaced = (first) => 3 * (LAST - first) + 2 + 1 + 7 * GIVEN + 2 + 15;

/** The steps that `numbers` adds: those, and two to enter and to leave the block of the new `main`. The call of the old one is none. */
const ADDED = THERE.reduce((sum, first) => sum + stepsOfSpaced(first), 2);

function numbers(bytes) {
  const module = moduleWith(bytes, ...TABLES);
  module.setMain(2, ...tablesOf(module).map(spaced), code.call(module.main));
  return module.write();
}

function counted(bytes) {
  const module = moduleWith(bytes, "num", "arg", "print");
  const calls = module.addGlobal();
  const first = module.next;
  module.renumber((place) => (place < module.own ? first + place : place));
  const counts = [...code.global(calls), ...code.constant(1), ...code.add, ...code.setGlobal(calls)];
  for (let place = 0; place < module.own; place++) {
    const { type } = module.imports[place];
    const passed = module.types[type][0].flatMap((_, n) => code.get(n));
    module.addFunction(type, 0, counts, passed, code.call(place));
  }
  module.setMain(0, code.call(module.main), printed(module, code.global(calls)));
  return module.write();
}

const MADE = 64;

/** Makes MADE things, and keeps how many were alive before. */
function tally({ make }, n) {
  const counts = [code.get(0), code.constant(1), code.add, code.tee(0), code.constant(MADE), code.less];
  return [
    ...code.constant(0), ...code.set(0),
    ...code.loop([I32], make, ...counts), ...code.constant(MADE - 1), ...code.subtract, ...code.set(n + 1),
  ];
}

function alive(bytes) {
  const module = moduleWith(bytes, ...TABLES, "arg", "print");
  module.setMain(4, code.call(module.main), ...tablesOf(module).map(tally), printed(module, code.get(1), code.get(2), code.get(3)));
  return module.write();
}

/** What each script must give, and how its module is written, with what that one prints besides. */
const CASES = [
  {
    name: "next in a function", script: 'function f(x) { if (x == "b") next; return x } { print "<" f($1) ">" }',
    input: "a\nb\nc\n", status: 0, output: "<a>\n<c>\n", ways: [[numbers, ""], [alive, "0 2 0\n"]],
  },
  {
    name: "exit in a function", script: 'function g() { exit 3 } BEGIN { print "a" g(); print "no" } END { print "end" }',
    input: "", status: 3, output: "end\n", ways: [[alive, "0 2 0\n"]],
  },
  {
    name: "a loop over keys", script: 'BEGIN { a["x"]; a["y"]; a["z"]; delete a["x"]; a["x"] = 1; for (k in a) { printf "%s ", k; delete a["x"] }; print ("x" in a) }',
    input: "", status: 0, output: "y z x 0\n", ways: [[numbers, ""], [alive, "1 3 0\n"]],
  },
  { name: "a loop of 10 turns", script: "BEGIN { while (n < 10) n = n + 1; print n }", input: "", status: 0, output: "10\n", ways: [[counted, "7\n"]] },
  { name: "a loop of 1,000 turns", script: "BEGIN { while (n < 1000) n = n + 1; print n }", input: "", status: 0, output: "1000\n", ways: [[counted, "7\n"]] },
];

const escaped = (text) => text.replaceAll("\\", "\\\\").replaceAll("\n", "\\n");

function compiled(program, script) {
  const folder = mkdtempSync(`${tmpdir()}/instrumented-`);
  try {
    writeFileSync(`${folder}/script`, script);
    execFileSync(program, ["compile", `${folder}/script`, `${folder}/module`]);
    return readFileSync(`${folder}/module`);
  } finally {
    rmSync(folder, { recursive: true });
  }
}

/** The least number of steps with which a script ends; it is below 2^20. */
function stepsOf(program, script, input) {
  let [least, most] = [0, 2 ** 20];
  while (least < most) {
    const middle = Math.floor((least + most) / 2);
    const { status } = spawnSync(program, ["run", "--steps", String(middle), script], { input });
    if (status === 4) least = middle + 1;
    else most = middle;
  }
  return most;
}

/** Has a table keep each number that it gives. */
function listen(table) {
  const put = table.put.bind(table);
  table.given = [];
  table.first = table.next;
  table.put = (held) => {
    table.given.push(put(held));
    return table.given.at(-1);
  };
}

/** What the host has to say of a run, beside its end and output: that the script's numbers are spaced, or the numbers that are printed last. */
const CONFIRMED = new Map([
  [numbers, ({ tables }) => tables.every(({ given, first }) => given.slice(LAST - first).every((it) => it < LAST && (it - FIRST) % APART === 0))],
  [counted, ({ calls, output }) => output.endsWith(`\n${calls - PRINTING}\n`)],
  [alive, ({ tables, output }) => output.endsWith(`\n${tables.map(({ live }) => live - MADE).join(" ")}\n`)],
]);

/** Runs a module over the host of js/core; whether it gives this status and output, and the host confirms it. */
function isGiven(how, module, input, status, wanted) {
  let output = "";
  const files = filesInMemory({ standard: input, output: (part) => { output += textOfBytes(part); } });
  const host = new Host({}, files);
  const tables = [host.values, host.arrays, host.iterators];
  tables.forEach(listen);
  const call = host.call.bind(host);
  let calls = 0;
  host.call = (...words) => (calls++, call(...words));
  const end = runModule(module, {}, files, host);
  return end.status === status && output === wanted && CONFIRMED.get(how)({ tables, calls, output });
}

/** A row with its answer; ci/refused_rows runs it too. */
const named = (name, row, answer, ...fields) => [[row, `t:${name}`, "a:", ...fields].join("\t"), `${name}\t${answer}`];

/** Two rows with their answers: the last of so many steps is needed, and no more are. */
function limited(name, less, row, steps, status, output) {
  return [
    named(name, row, `${status}\t\t${output}`, `s:${steps}`),
    named(`${name}, ${less}`, row, `4\tOutOfSteps\t${output}`, `s:${steps - 1}`),
  ];
}

/** The rule that an instrumented module tests. */
const RULES = new Map([[numbers, "handle numbers"], [counted, "host calls"], [alive, "alive at the end"]]);

/** The rows of a script, with their answers: its own, and those of its instrumented modules. */
function rowsOf(program, { name, script, input, status, output, ways }) {
  const bytes = compiled(program, script);
  const steps = stepsOf(program, script, input);
  const instrumented = ways.flatMap(([how, more]) => {
    const module = how(bytes);
    if (!isGiven(how, module, input, status, output + more)) throw new Error(`${how.name}: ${script}`);
    const row = `module:${module.toString("hex")}\t${escaped(input)}`;
    const its = `${RULES.get(how)}: ${name}`;
    if (how === numbers) return limited(its, "one step less", row, steps + ADDED, status, escaped(output));
    return [named(its, row, `${status}\t\t${escaped(output + more)}`)];
  });
  return [...limited(`steps: ${name}`, "one less", `${escaped(script)}\t${escaped(input)}`, steps, status, escaped(output)), ...instrumented];
}

const words = argv.slice(2);
const what = ["rows", "answers"].includes(words[0]) ? words.shift() : "compare";
const rows = CASES.flatMap((it) => rowsOf(words[0] ?? `${top}awkwasm`, it));
const [asked, answered] = [0, 1].map((n) => rows.map((row) => `${row[n]}\n`).join(""));
if (what === "compare") {
  const stand = [["stdin", asked], ["stdout", answered]].every(([file, text]) => readFileSync(`${top}crates/test_scripts/${file}`, "latin1").includes(text));
  console.log(`${rows.length} rows; they ${stand ? "stand" : "do NOT stand"} in crates/test_scripts`);
  exit(stand ? 0 : 1);
}
process.stdout.write(what === "rows" ? asked : answered);
