// The examples: what `compile` writes must be the module that is kept beside the script, and the package must print what the example says.

import { existsSync, readFileSync, readdirSync } from "node:fs";
import { basename } from "node:path";

import { filesInMemory, load, run, textOfBytes } from "../js/core/index.mjs";
import { Counts, compiled, eachInTime, ran } from "./js_compare.mjs";

/** The scripts beside which a module is kept: folder and name, without the ending. */
function scriptsOf(top) {
  const examples = readdirSync(`${top}examples`, { withFileTypes: true }).filter((it) => it.isDirectory()).map(({ name }) => `examples/${name}`);
  const names = (folder) => readdirSync(`${top}${folder}`).filter((name) => name.endsWith(".awk")).map((name) => name.slice(0, -".awk".length));
  return [...examples, "js/test/modules"].flatMap((folder) => names(folder).map((name) => ({ folder: `${top}${folder}`, name })));
}

/** The status that an example ends with, by the list of examples. */
function statusOf(top, name) {
  const lines = readFileSync(`${top}examples/list`, "utf8").split("\n").map((line) => line.split(" "));
  return Number(lines.find(([it]) => it === name)?.[1] ?? 0);
}

function printed(bytes, input) {
  let out = "";
  const end = run(load(bytes), {}, filesInMemory({ standard: input, output: (part) => { out += textOfBytes(part); } }));
  return { out, status: end.status };
}

/** The example of a program of one's own prints what its script prints, and then how it ended. */
async function compareReport(top, counts, differing) {
  const { out } = await ran(process.execPath, [`${top}examples/embedding/report.mjs`]);
  if (out === `${readFileSync(`${top}examples/access_log/output`, "latin1")}ended with status 0\n`) counts.add("program of one's own");
  else differing.push(`examples/embedding/report.mjs: ${out}`);
}

/** One script: the module that is kept beside it, and what that prints. */
async function compareExample({ top, program, work }, { folder, name }, counts, differing) {
  const { bytes } = await compiled(program, `${work}/examples`, readFileSync(`${folder}/${name}.awk`, "latin1"));
  const kept = `${folder}/${name}.wasm`;
  if (existsSync(kept) && bytes !== undefined && readFileSync(kept).equals(bytes)) counts.add("same module");
  else differing.push(`${kept} is not what compile writes: tests/make_example_modules`);
  if (bytes === undefined || !existsSync(`${folder}/output`)) return;
  const { out, status } = printed(bytes, readFileSync(`${folder}/input`, "latin1"));
  if (out === readFileSync(`${folder}/output`, "latin1") && status === statusOf(top, basename(folder))) counts.add("same output");
  else differing.push(`${folder}: status ${status}\n${out}`);
}

export async function compareExamples(given) {
  const counts = new Counts();
  const differing = [];
  await compareReport(given.top, counts, differing);
  await eachInTime(scriptsOf(given.top), { lanes: 1, until: given.until }, counts, (it) => compareExample(given, it, counts, differing));
  return { what: "examples", counts, differing };
}
