// Random modules that call imports in an order of their own: the program runs each over real files, and the package over files in memory.

import { mkdirSync, rmSync, writeFileSync } from "node:fs";

import { Counts, eachInTime } from "./js_compare.mjs";
import { byPackage, byProgram, difference } from "./js_random.mjs";
import { randomCalls } from "./random_calls.mjs";

const WORDS = [[], ["f"], ["x=5", "-", "g"], ["RS=,", "f", "-"]];

export async function compareCalls({ program, work, scripts, seed, ...bounds }) {
  const counts = new Counts();
  const differing = [];
  const count = Math.ceil(scripts / 6);
  await eachInTime(randomCalls(count, seed), bounds, counts, async (bytes, n, lane) => {
    const folder = `${work}/calls.${lane}`;
    rmSync(folder, { recursive: true, force: true });
    mkdirSync(folder, { recursive: true });
    writeFileSync(`${folder}/module`, bytes);
    const words = WORDS[n % WORDS.length];
    const ours = byPackage(bytes, words);
    counts.add(ours.kind);
    const why = difference(await byProgram(program, folder, words), ours);
    if (why) differing.push(`module ${n}, words ${JSON.stringify(words)}: ${why}`);
  });
  return { what: `${count} modules of random calls, seed ${seed}`, counts, differing };
}
