import assert from "node:assert/strict";
import { readFileSync, readdirSync } from "node:fs";
import { test } from "node:test";

import { LoadError, filesInMemory, linesOf, load, run, shown, sourceOf, textOfBytes, utf8, withMostInput, withMostOutput, withStreams } from "awkwasm/core";

const file = (name) => readFileSync(new URL(`./modules/${name}`, import.meta.url));
const module = (name) => file(`${name}.wasm`);

/** A run over files in memory: how it ended, what it printed and wrote. */
function ran(name, { limits, files = {}, ...invocation } = {}) {
  let out = "";
  const memory = filesInMemory({ ...files, output: (part) => { out += textOfBytes(part); } });
  const end = run(load(module(name), limits), invocation, memory);
  return { end, out, written: memory.written().map(([it, bytes]) => [it, textOfBytes(bytes)]) };
}

test("the core and the browser's part import nothing of Node.js", () => {
  for (const folder of ["core", "worker", "browser", "page"]) {
    const names = readdirSync(new URL(`../${folder}`, import.meta.url)).filter((name) => name.endsWith(".mjs") && name !== "make.mjs");
    for (const name of names) {
      const text = readFileSync(new URL(`../${folder}/${name}`, import.meta.url), "utf8");
      assert.doesNotMatch(text, /from "node:|from "fs"|\bprocess\./, `${folder}/${name}`);
    }
  }
});

test("a module prints and writes", () => {
  const { end, out, written } = ran("copy", { files: { standard: "a\nb" } });
  assert.deepEqual(end, { kind: "ended", status: 0, name: null });
  assert.equal(out, "1: a\n2: b\n");
  assert.deepEqual(written, [["out", "a\nb\n"]]);
});

test("an error has its program point, and what was being read", () => {
  const { end, out } = ran("half", { operands: ["f"], files: { named: [["f", "8\n7\n6\n"]] } });
  assert.equal(out, "4\n");
  assert.deepEqual([end.kind, end.status, end.name], ["fault", 2, "Inexact"]);
  assert.deepEqual(end.reading, { nr: "2", fnr: "2", filename: "f", record: "7" });
  const functions = linesOf(file("half.awk").toString());
  assert.equal(functions[end.place.function].name, "half");
  assert.equal(functions[end.place.function].lines[end.place.point], 2);
});

test("a limit of steps ends a script that goes on for ever", () => {
  const { end } = ran("forever", { limits: { steps: 10_000 } });
  assert.deepEqual([end.kind, end.status, end.name], ["steps", 4, "OutOfSteps"]);
  assert.equal(ran("copy", { limits: { steps: 10_000 }, files: { standard: "a\n" } }).end.kind, "ended");
});

test("a limit of steps is a whole number from 0 on, or none", () => {
  assert.equal(ran("copy", { limits: { steps: 0 } }).end.kind, "steps");
  for (const steps of [null, undefined, Infinity, 2n ** 70n]) assert.equal(ran("copy", { limits: { steps } }).end.kind, "ended");
  for (const steps of [-1, 0.5, NaN]) assert.throws(() => load(module("copy"), { steps }), RangeError);
});

test("a text with characters that are no bytes is refused", () => {
  for (const given of [{ operands: ["€"] }, { assigns: [["x", "€"]] }, { files: { standard: "€" } }]) assert.throws(() => ran("copy", given), TypeError);
  assert.equal(ran("half", { operands: [utf8("€=1")], files: { standard: "8\n" } }).end.name, "OpenInput");
});

test("of a script that compile refuses the lines are an error, or some lines", () => {
  const scripts = ["{ print (", "{", "}", "(", "function", "function f(", "BEGIN { if (", "{ for (;;", "{ for (i in", "{ a[", '{ "abc', "/abc", "{ do", "a,", "{ print ) }", "BEGIN", "{ if (x) }",
    "{ nextfile", "@include", "{ { { {", "else", "function f(a) { return (a }"];
  for (const script of scripts) {
    try {
      assert.ok(Array.isArray(linesOf(script)));
    } catch (error) {
      assert.match(error.message, /not one that compile takes/, script);
    }
  }
});

test("a write past the limit on output fails after what fits", () => {
  let out = "";
  const files = withMostOutput(filesInMemory({ output: (part) => { out += textOfBytes(part); } }), 10);
  const end = run(module("endless"), {}, files);
  assert.deepEqual([end.name, out, files.isReached()], ["WriteFailed", "a line\na l", true]);
});

/** A source of these parts, which notes how many bytes it is asked for. */
function asked(texts, seen) {
  const parts = texts.map((text) => Buffer.from(text));
  return () => ({ read: (most) => (seen.push(most), parts.shift() ?? null) });
}

/** A run of a module over a standard input and a file `f`, of which so many bytes are read. */
function readingAtMost(most, name, { standard, f }) {
  let out = "";
  const files = withMostInput(filesInMemory({ standard, named: [["f", f]], output: (part) => { out += textOfBytes(part); } }), most);
  return [run(module(name), {}, files).name, out];
}

test("a read past the limit on input fails, and the end of the input is no failure", () => {
  for (const [most, wanted, due] of [
    [6, [6, 4, 3, 1], null], [5, [5, 3, 2], "ReadFailed"], [2, [2, 1], "ReadFailed"], [0, [1], "ReadFailed"],
  ]) {
    const seen = [];
    const [name, out] = readingAtMost(most, "copy", { standard: asked(["a\n", "b", "\nc\n"], seen), f: "" });
    assert.deepEqual([name, seen], [due, wanted], most);
    assert.equal(out, ["1: a\n", "2: b\n", "3: c\n"].slice(0, [0, 0, 1, 1, 1, 2, 3][most]).join(""));
  }
});

test("a source that gives more than it is asked for is cut at the limit on input", () => {
  const whole = "a\nb\nc\n";
  assert.deepEqual(readingAtMost(4, "copy", { standard: whole, f: "" }), ["ReadFailed", "1: a\n2: b\n"]);
  assert.deepEqual(readingAtMost(6, "copy", { standard: whole, f: "" }), [null, "1: a\n2: b\n3: c\n"]);
});

test("the limit on input is one of all that is read", () => {
  // the standard input has 5 bytes, and the file 4
  const given = { standard: "a\n\nb\n", f: "x\n\ny" };
  assert.deepEqual(readingAtMost(9, "paragraphs", given), [null, "1 a a\nx\n2 b b\ny\n"]);
  assert.deepEqual(readingAtMost(8, "paragraphs", given), [null, "1 a a\nx\n2 b b\nx\n"]);
  // after a failure no read is tried, not even for the end of the standard input
  assert.deepEqual(readingAtMost(7, "paragraphs", given), ["ReadFailed", "1 a a\n\n"]);
});

test("names of streams are the streams themselves", () => {
  const seen = [];
  const parts = ["a\nb\n", "c\n"].map((part) => Buffer.from(part));
  const memory = filesInMemory({ standard: () => ({ read: () => parts.shift() ?? null }), output: (part) => seen.push(`out ${textOfBytes(part)}`) });
  const files = withStreams(memory, { write: (part) => seen.push(`err ${textOfBytes(part)}`) });
  assert.equal(run(module("streams"), {}, files).kind, "ended");
  // what the reader of the main input has taken in stays with it
  const due = (line) => [`out main ${line}\n`, "err to errors\n", "out to output\n", "out named c\n", "out closed 0\n"];
  assert.deepEqual(seen, [...due("a"), ...due("b")]);
  assert.deepEqual(memory.written(), []);
  const without = filesInMemory({ standard: "a\n" });
  assert.equal(run(module("streams"), {}, without).kind, "ended");
  assert.deepEqual(without.written().map(([name]) => name), ["/dev/stderr", "/dev/stdout"]);
});

test("input in parts gives the records of the whole", () => {
  const text = "\n\na b\nc\n\n\nd e\n\nf\n";
  const whole = ran("paragraphs", { files: { standard: text, named: [["f", "x\n\n\ny\n"]] } }).out;
  assert.equal(whole, "1 a c\nx\n2 d e\ny\n3 f f\ny\n");
  for (const size of [1, 2, 3, 5]) {
    const parts = text.match(new RegExp(`[^]{1,${size}}`, "g")).map((part) => Buffer.from(part));
    const standard = () => ({ read: () => parts.shift() ?? null });
    const f = () => sourceOf("x\n\n\ny\n");
    assert.equal(ran("paragraphs", { files: { standard, named: [["f", f]] } }).out, whole);
  }
});

test("a record of many parts takes time in proportion to its length", () => {
  const part = new Uint8Array(65_536).fill(97);
  let left = 300;
  const { end, out } = ran("copy", { files: { standard: () => ({ read: () => (left-- > 0 ? part : null) }) } });
  assert.equal(end.kind, "ended");
  assert.equal(out.length, 300 * 65_536 + 4);
});

test("fields that are set one at a time take time in proportion to their number", () => {
  const before = process.cpuUsage().user;
  assert.equal(ran("fields", { files: { standard: `${"1 ".repeat(300_000)}\n` } }).out, "2\n");
  assert.ok(process.cpuUsage().user - before < 20e6);
});

test("nothing is read before it is needed", () => {
  const parts = ["a\n", "b\n"].map((part) => Buffer.from(part));
  const seen = [];
  const source = { read: () => (seen.push("read"), parts.shift() ?? null) };
  run(module("copy"), {}, filesInMemory({ standard: () => source, output: (part) => seen.push(textOfBytes(part)) }));
  assert.deepEqual(seen, ["read", "1: a\n", "read", "2: b\n", "read"]);
});

test("words and output are bytes", () => {
  const { out } = ran("copy", { files: { standard: utf8("é\u{1f600}\n") + "\xff\n" } });
  assert.equal(shown(out), "1: é\u{1f600}\n2: \ufffd\n");
});

const [I32, I64] = [0x7f, 0x7e];
const named = (name) => [name.length, ...Buffer.from(name)];
const section = (id, ...body) => [id, body.flat().length, ...body.flat()];

/** A module that imports one function, with one parameter at most, and whose `main` is these instructions. */
function importing(from, name, params, results, main) {
  const types = [2, 0x60, params.length, ...params, results.length, ...results, 0x60, 0, 1, I32];
  return Uint8Array.from([
    0, 0x61, 0x73, 0x6d, 1, 0, 0, 0, ...section(1, types), ...section(2, [1, ...named(from), ...named(name), 0, 0]), ...section(3, [1, 1]),
    ...section(7, [1, ...named("main"), 0, 1]), ...section(10, [1, main.length + 2, 0, ...main, 0x0b]),
  ]);
}

test("only the 56 imports are had, with their types", () => {
  const nothing = [0x41, 0];
  load(importing("awk2", "num", [I64], [I32], nothing));
  load(importing("awk1", "num", [I64], [I32], nothing));
  const wrong = [["constructor", "constructor", [], []], ["awk2", "toString", [], [I32]], ["__proto__", "valueOf", [], []], ["awk2", "num", [I32], [I32]],
    ["awk1", "clear", [I32], [I32]], ["awk2", "constructor", [], []], ["env", "num", [I64], [I32]]];
  for (const it of wrong) assert.throws(() => load(importing(...it, nothing)), new LoadError("BadImport 0"), it.join());
});

test("what is no module is refused", () => {
  assert.throws(() => load(Buffer.from("BEGIN { }")), WebAssembly.CompileError);
  assert.throws(() => load(Uint8Array.from([0, 0x61, 0x73, 0x6d, 1, 0, 0, 0])), new LoadError("NoMain"));
});

test("a handle that is not there traps, and a trap is no fault", () => {
  const end = run(importing("awk2", "drop", [I32], [], [0x41, 7, 0x10, 0, 0x41, 0]), {}, filesInMemory());
  assert.deepEqual([end.kind, end.status, end.name], ["trap", 7, "BadHandle"]);
});

test("a module that is loaded once runs often", () => {
  const loaded = load(new Uint8Array(module("copy")).buffer);
  for (const text of ["a", "b\nc"]) assert.equal(run(loaded, {}, filesInMemory({ standard: text })).kind, "ended");
});

/** A module without imports: a function of these locals, `main`, and a memory. */
function plain({ memory, locals, main }) {
  const body = [...locals, ...main, 0x0b];
  const size = [(body.length & 127) | 128, body.length >> 7];
  const code = [1, ...size, ...body];
  return Uint8Array.from([
    0, 0x61, 0x73, 0x6d, 1, 0, 0, 0, ...section(1, [1, 0x60, 0, 1, I32]), ...section(3, [1, 0]), ...section(5, memory),
    ...section(7, [1, ...named("main"), 0, 0]), ...section(10, code),
  ]);
}

test("calls that nest deeply with many locals end as Exhausted", () => {
  const end = run(plain({ memory: [1, 0, 0], locals: [1, 0xd0, 0x86, 3, I64], main: [0x10, 0] }), {}, filesInMemory());
  assert.deepEqual([end.kind, end.status, end.name], ["depth", 6, "Exhausted"]);
});

test("memory grows to 256 pages at most, and a function may have 50,000 locals", () => {
  const grow = (by) => [0x41, ...by, 0x40, 0, 0x41, 1, 0x6a];
  const statusOf = (given) => run(plain({ locals: [0], ...given }), {}, filesInMemory()).status;
  assert.equal(statusOf({ memory: [1, 0, 1], main: grow([0xff, 1]) }), 2);
  assert.equal(statusOf({ memory: [1, 0, 1], main: grow([0x80, 2]) }), 0);
  assert.equal(statusOf({ memory: [1, 1, 1, 2], main: grow([2]) }), 0);
  assert.throws(() => statusOf({ memory: [1, 0, 0x81, 2], main: grow([1]) }), new LoadError("TooLarge"));
  assert.equal(statusOf({ memory: [1, 0, 0], locals: [1, 0xd0, 0x86, 3, I64], main: [0x41, 9] }), 9);
});
