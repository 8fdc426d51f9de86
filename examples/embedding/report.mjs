// Runs a compiled script in a program of one's own, for Node.js: node report.mjs
//
// The script sees one text as its input. Files are in memory, so it opens none of the machine.

import { readFileSync } from "node:fs";

import { filesInMemory, load, run, shown, textOfBytes } from "../../js/node/index.mjs";

const read = (name) => readFileSync(new URL(`../access_log/${name}`, import.meta.url));

let printed = "";
const files = filesInMemory({ standard: read("input"), output: (bytes) => { printed += textOfBytes(bytes); } });
const module = load(read("script.wasm"), { steps: 1_000_000 });
const end = run(module, { operands: ["-"] }, files);

console.log(shown(printed).trimEnd());
console.log(end.name === null ? `ended with status ${end.status}` : `ended early: ${end.name}`);
