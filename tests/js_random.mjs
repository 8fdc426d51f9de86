// Random scripts: the program runs each module over real files, and the package runs the same bytes over files in memory.

import { mkdirSync, readFileSync, readdirSync, writeFileSync } from "node:fs";

import { bytesOfText, filesInMemory, load, run, textOfBytes } from "../js/core/index.mjs";
import { linesOf } from "../js/core/places.mjs";
import { fenced } from "../js/node/index.mjs";
import { Counts, compiled, eachInTime, ran } from "./js_compare.mjs";
import { randomScripts } from "./random_scripts.mjs";

const INPUT = "a b\nb c d\n\n12 0.5\n a,b  c\nx=1 3 -7\n";
const FILES = [["f", "f1\nf2 b\n\n3 4"], ["g", "g1\ng2 a\n"], ["a", "in a\n"]];
const WORDS = [[], ["f"], ["x=5", "-", "g"], ["f", "v=\\t9", "a"], ["RS=,", "f", "-"], ["none"]];
const ENVIRONMENT = [["E", "7"], ["F", " e "]];
// of the program's steps; a step of the package is at least one of the program's
const STEPS = 200_000;

/** The program's run of a module in a folder: what it printed, said and wrote. */
export async function byProgram(program, folder, words) {
  const here = `${folder}/here`;
  mkdirSync(here);
  for (const [name, text] of FILES) writeFileSync(`${here}/${name}`, text);
  const env = Object.fromEntries(ENVIRONMENT);
  const { status, out, said } = await ran(program, ["exec", "--steps", String(STEPS), "-v", "x=3", "../module", ...words], { cwd: here, input: INPUT, env });
  const files = readdirSync(here).sort().map((name) => [name, readFileSync(`${here}/${name}`, "latin1")]);
  return { status, out, name: said.trim().replace(/^awkwasm: /, ""), files };
}

/** Whether a name opens in a folder of the machine that has no other folders. */
const opens = (name) => name !== "" && name !== "." && name !== ".." && !/[/\0]/.test(name) && name.length < 256;

/** The package's run of it. */
export function byPackage(bytes, words) {
  let out = "";
  const files = filesInMemory({ named: FILES, standard: INPUT, output: (part) => { out += textOfBytes(part); } });
  const environment = [...ENVIRONMENT, ["PATH", process.env.PATH]].sort(([a], [b]) => (a < b ? -1 : 1));
  const invocation = { operands: words, assigns: [["x", "3"]], environment };
  const end = run(load(bytes, { steps: STEPS }), invocation, fenced({ mayRead: opens, mayWrite: opens }, files));
  const held = new Map([...FILES, ...files.written().map(([name, text]) => [name, textOfBytes(text)])]);
  return { kind: end.kind, status: end.status, out, name: end.name ?? "", files: [...held].sort(([a], [b]) => (a < b ? -1 : 1)) };
}

export function difference(theirs, ours) {
  if (theirs.status === 4) return ours.status !== 4 && `ends with ${ours.name}, where the program runs on`;
  for (const what of ["status", "name", "out", "files"]) {
    const [due, got] = [theirs[what], ours[what]].map((it) => JSON.stringify(it));
    if (due !== got) return `${what}: ${got.slice(0, 300)}, wanted ${due.slice(0, 300)}`;
  }
  return false;
}

/** The program points of a script must be as many as its module has. */
export function pointsAgree(script, bytes) {
  return load(bytes).places.join() === linesOf(script).map(({ lines }) => lines.length).join();
}

/** What comes of a script, and why it differs, if it does. */
async function compared(script, words, program, folder) {
  const made = await compiled(program, folder, script);
  if (made.bytes === undefined) return { came: `refused (${made.said.split(" ")[0]})`, why: false };
  const theirs = await byProgram(program, folder, words);
  const ours = byPackage(made.bytes, words);
  return { came: ours.kind, why: difference(theirs, ours) || (!pointsAgree(script, made.bytes) && "other program points") };
}

export async function compareRandom({ program, work, scripts, seed, ...bounds }) {
  const counts = new Counts();
  const differing = [];
  await eachInTime(randomScripts(scripts, seed), bounds, counts, async (script, n, lane) => {
    const words = WORDS[n % WORDS.length];
    const { came, why } = await compared(script, words, program, `${work}/random.${lane}`);
    counts.add(came);
    if (why) differing.push(`script ${n}, words ${JSON.stringify(words)}: ${why}\n${script}`);
  });
  return { what: `${scripts} random scripts, seed ${seed}`, counts, differing };
}
