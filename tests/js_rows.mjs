// The rows of test_scripts: their answers are what the gate has proved of the program.

import { readFileSync } from "node:fs";

import { FAULTS, LoadError, bytesOfText, filesInMemory, load, run, textOfBytes } from "../js/core/index.mjs";
import { fenced } from "../js/node/index.mjs";
import { Counts, compiled, eachInTime } from "./js_compare.mjs";
import { pointsAgree } from "./js_random.mjs";

/** Fields for which a world of its own is needed, or the program: failing calls, a limit of steps, output without an end, cut modules, what is alive. */
const SPECIAL = new Set(["c", "d", "s", "u", "b", "h"]);

const unescaped = (field) =>
  field.replace(/\\([0-7]{3}|.)/g, (_, c) => ({ n: "\n", t: "\t", "\\": "\\" })[c] ?? (c.length === 3 ? String.fromCharCode(parseInt(c, 8)) : c));
const escaped = (text) =>
  text.replace(/[^ -[\]-~]/g, (c) => ({ "\n": "\\n", "\t": "\\t", "\\": "\\\\" })[c] ?? `\\${c.charCodeAt(0).toString(8).padStart(3, "0")}`);

/** What is before the first `=`, and what is after it. */
function pairOf(text) {
  const at = text.indexOf("=");
  return at < 0 ? [text, ""] : [text.slice(0, at), text.slice(at + 1)];
}

function timesOf(text) {
  const [times, part] = pairOf(text);
  return part.repeat(Number(times));
}

/** The bytes of a module that stands in the place of a script, with those that follow. */
function moduleOf(script, more) {
  return Buffer.concat([Buffer.from(script.slice("module:".length), "hex"), Buffer.from(more, "latin1")]);
}

/** A row of the file: what its fields say. */
function rowOf(line) {
  const [script, input = "", ...others] = line.split("\t").map(unescaped);
  const fields = others.map((field) => [field[0], field.slice(2)]);
  const all = (letter) => fields.filter(([it]) => it === letter).map(([, text]) => text);
  const isWords = line.startsWith("words:");
  const more = all("p").map(timesOf).join("");
  return {
    line, all, isWords, isSpecial: isWords || fields.some(([letter]) => SPECIAL.has(letter)),
    script: script + more, bytes: () => moduleOf(script, more), input: input + all("i").map(timesOf).join(""),
    isModule: script.startsWith("module:"), operands: all("o"), shown: all("l"),
    invocation: { operands: all("o"), assigns: all("v").map(pairOf), environment: all("e").map(pairOf) },
  };
}

/** Pairs the rows that are tried with their answers. The rows that let each call fail in turn have many, and come last. */
function paired(rows, answers) {
  const last = rows.findIndex((row) => row.all("d").length > 0);
  let at = 0;
  return rows.slice(0, last < 0 ? rows.length : last).map((row) => {
    const lines = row.isWords ? 1 : 1 + row.shown.length + row.all("b").length + row.all("h").length;
    at += lines;
    return { row, due: answers.slice(at - lines, at) };
  }).filter(({ row }) => !row.isSpecial);
}

/** A source that fails after its bytes. */
function failing(text) {
  let left = text === "" ? [] : [bytesOfText(text)];
  return { read() {
    if (left.length === 0) throw new Error("a failing read");
    return left.pop();
  } };
}

function worldOf(row, out) {
  const named = [...row.all("f").map(pairOf), ...row.all("g").map(pairOf).map(([name, text]) => [name, () => failing(text)])];
  const room = row.all("r").map(Number)[0] ?? Infinity;
  const output = (part) => {
    const fits = textOfBytes(part).slice(0, room - out.text.length);
    out.text += fits;
    if (fits.length < part.length) throw new Error("full");
  };
  const standard = row.all("x").length > 0 ? () => failing(row.input) : row.input;
  const world = filesInMemory({ named, standard, output });
  const shut = new Set(row.all("n"));
  const opens = (name) => !shut.has(name);
  const kept = { __proto__: null, "no-files": {}, "read-only": { mayRead: opens }, "only-operands": { mayRead: (name) => row.operands.includes(name) } };
  const fence = row.all("k").map((name) => kept[name])[0] ?? { mayRead: opens, mayWrite: opens };
  return { files: fenced(fence, world), world };
}

/** The lines of the answer: status, what is told of the end, output; then each file that is shown. */
function answerOf(row, bytes) {
  const out = { text: "" };
  const { files, world } = worldOf(row, out);
  let end;
  try {
    end = run(load(bytes), row.invocation, files);
  } catch (error) {
    if (error instanceof LoadError) end = { status: 3, name: error.message };
    else if (error instanceof WebAssembly.CompileError) end = { status: 3, name: "CompileError" };
    else throw error;
  }
  const written = new Map(world.written());
  const files_ = row.shown.map((name) => {
    const text = written.has(name) ? textOfBytes(written.get(name)) : row.all("f").map(pairOf).find(([it]) => it === name)?.[1];
    return text === undefined ? escaped(name) : `${escaped(name)}\t${escaped(text)}`;
  });
  const title = row.all("t").map((name) => `${escaped(name)}\t`).join("");
  return { lines: [`${title}${end.status}\t${end.name ?? ""}\t${escaped(out.text)}`, ...files_], end };
}

// What a module written by hand may end with: the engine says it in its own words.
const OWN_WORDS = {
  Unreachable: /unreachable/, DivideByZero: /divide by zero|remainder by zero/, IntegerOverflow: /divide result unrepresentable/,
  MemoryBounds: /memory access out of bounds/, TableBounds: /table index is out of bounds/, EmptyElement: /null function|signature mismatch/,
  WrongType: /null function|signature mismatch/,
};

function agrees(row, lines, due) {
  if (lines.join("\n") === due.join("\n")) return true;
  if (!row.isModule) return false;
  // (a row's name may stand before the three)
  const [status, name, out] = due[0].split("\t").slice(-3);
  const [ourStatus, ourName, ourOut] = lines[0].split("\t").slice(-3);
  if (status !== ourStatus || out !== ourOut) return false;
  return status === "3" ? ourName === "CompileError" || FAULTS.includes(name) : OWN_WORDS[name]?.test(ourName) ?? false;
}

export async function compareRows({ top, program, work, ...bounds }) {
  const read = (name) => readFileSync(`${top}crates/test_scripts/${name}`, "latin1").split("\n").slice(0, -1);
  const rows = read("stdin").map(rowOf);
  const plain = paired(rows, read("stdout"));
  const counts = new Counts([["special", rows.length - plain.length]]);
  const differing = [];
  await eachInTime(plain, bounds, counts, async ({ row, due }, n, lane) => {
    const made = row.isModule ? { bytes: row.bytes() } : await compiled(program, `${work}/rows.${lane}`, row.script);
    if (made.bytes === undefined) {
      counts.add("refused by compile");
      return;
    }
    const { lines, end } = answerOf(row, made.bytes);
    counts.add(row.isModule ? "modules" : end.kind);
    const differs = (why) => differing.push(`${row.line.slice(0, 300)}\n  ${why}`);
    if (!agrees(row, lines, due)) differs(`due  ${due.join("\n       ").slice(0, 400)}\n  ours ${lines.join("\n       ").slice(0, 400)}`);
    if (!row.isModule && !pointsAgree(row.script, made.bytes)) differs("other program points");
  });
  return { what: "rows of test_scripts", counts, differing };
}
