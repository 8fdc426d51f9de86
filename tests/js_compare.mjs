// What the comparisons of tests/js_agrees share: runs of the program, and a count of what came out.

import { execFile } from "node:child_process";
import { mkdirSync, readFileSync, rmSync, writeFileSync } from "node:fs";

/** Calls a function for each item, so many at a time. */
export async function each(items, lanes, act) {
  const left = items.entries();
  const lane = async (_, number) => {
    for (const [n, item] of left) await act(item, n, number);
  };
  await Promise.all(Array.from({ length: lanes }, lane));
}

/** The texts of a run of a command: status, output and messages. Texts are strings of bytes. */
export function ran(command, words, { cwd, input = "", env = {} } = {}) {
  return new Promise((resolve) => {
    const options = { cwd, env: { PATH: process.env.PATH, ...env }, encoding: "latin1", maxBuffer: 2 ** 28 };
    const child = execFile(command, words, options, (error, out, said) => {
      resolve({ status: error === null ? 0 : error.code ?? -1, out, said });
    });
    child.stdin.on("error", () => {});
    child.stdin.end(Buffer.from(input, "latin1"));
  });
}

/** Compiles a script in a folder: the module's bytes, or what the program says. */
export async function compiled(program, folder, script) {
  rmSync(folder, { recursive: true, force: true });
  mkdirSync(folder, { recursive: true });
  writeFileSync(`${folder}/script`, script, "latin1");
  const { status, said } = await ran(program, ["compile", `${folder}/script`, `${folder}/module`]);
  return status === 0 ? { bytes: readFileSync(`${folder}/module`) } : { status, said: said.trim().replace(/^awkwasm: /, "") };
}

/** Counts by names. */
export class Counts extends Map {
  add(name) {
    this.set(name, (this.get(name) ?? 0) + 1);
  }
}

/** Calls a function for each item, so many at a time, while there is time; what is not run is counted as such. */
export function eachInTime(items, { lanes, until }, counts, act) {
  return each(items, lanes, async (item, n, lane) => {
    if (Date.now() > until) counts.add("NOT RUN, since the time is over");
    else await act(item, n, lane);
  });
}
