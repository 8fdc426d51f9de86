// What tests/js_agrees runs: see there.

import { availableParallelism, cpus, tmpdir } from "node:os";
import { mkdtempSync, realpathSync, rmSync } from "node:fs";
import { fileURLToPath } from "node:url";
import { parseArgs } from "node:util";
import { Worker, isMainThread } from "node:worker_threads";

import { STACK } from "../js/node/start.mjs";
import { compareCalls } from "./js_calls.mjs";
import { compareCommandLines } from "./js_command_lines.mjs";
import { compareExamples } from "./js_examples.mjs";
import { compareRandom } from "./js_random.mjs";
import { compareRows } from "./js_rows.mjs";

function given() {
  const { values, positionals } = parseArgs({
    args: process.argv.slice(2), allowPositionals: true,
    options: { scripts: { type: "string", default: "3000" }, seed: { type: "string", default: "1" }, seconds: { type: "string", default: "Infinity" } },
  });
  const top = fileURLToPath(new URL("..", import.meta.url));
  const program = realpathSync(positionals[0] ?? `${top}crates/awkwasm/out/awkwasm`);
  const lanes = availableParallelism?.() ?? cpus().length;
  const until = Date.now() + 1000 * Number(values.seconds);
  return { top, program, work: mkdtempSync(`${tmpdir()}/js_agrees.`), lanes, scripts: Number(values.scripts), seed: Number(values.seed), until };
}

/** One comparison: prints its counts and the first differences, and answers how many there are. */
async function differencesOf(compare, words) {
  const began = performance.now();
  const { what, counts, differing } = await compare(words);
  for (const it of differing.slice(0, 5)) console.log(it);
  const told = [...counts].sort(([, a], [, b]) => b - a).map(([name, count]) => `${name} ${count}`).join(", ");
  console.log(`${what}: ${told}; differing ${differing.length} (${((performance.now() - began) / 1000).toFixed(1)} s)`);
  return differing.length;
}

const COMPARISONS = [compareExamples, compareCommandLines, compareRows, compareCalls, compareRandom];

/** Each takes half of the time that is left at most, and the last one takes all of it. So some of each is run also on a busy machine. */
function untilFor(compare, until) {
  const now = Date.now();
  return compare === COMPARISONS.at(-1) ? until : now + (until - now) / 2;
}

async function main() {
  const words = given();
  let wrong = 0;
  try {
    for (const compare of COMPARISONS) wrong += await differencesOf(compare, { ...words, until: untilFor(compare, words.until) });
  } finally {
    rmSync(words.work, { recursive: true, force: true });
  }
  process.exit(wrong === 0 ? 0 : 1);
}

// Scripts whose functions call one another 10,000 deep need a thread with a larger stack.
if (isMainThread) {
  const worker = new Worker(new URL(import.meta.url), { argv: process.argv.slice(2), resourceLimits: STACK });
  worker.on("exit", (status) => { process.exitCode = status; });
} else {
  await main();
}
