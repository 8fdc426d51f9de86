// Runs a module over two hosts of js/core: one numbers handles, arrays and iterators from 0 on and uses numbers again, the other numbers from
// 1000 on by sevens and uses none again. The ends, the outputs and the files have to be the same, and so have the imports that are called; and no more
// values and arrays may be alive at the end than the script's names hold.
//
//     node numbers.mjs MODULE INPUT VALUES ARRAYS WORDS..

import { readFileSync } from "node:fs";
import { argv, exit } from "node:process";

import { Host, filesInMemory, run as runModule, textOfBytes } from "../../js/core/index.mjs";

const [module, input, values, arrays, ...operands] = argv.slice(2);
const bytes = readFileSync(module);

function run(numbers) {
  let output = "";
  const job = { operands };
  const files = filesInMemory({
    named: [["f", "p\n"], ["g", "q"]], standard: readFileSync(input, "latin1"), output: (part) => { output += textOfBytes(part); },
  });
  const host = new Host(job, files);
  numbers([host.values, host.arrays, host.iterators]);
  const calls = [];
  const call = host.call.bind(host);
  host.call = (name, ...rest) => {
    calls.push(name);
    return call(name, ...rest);
  };
  const end = runModule(bytes, job, files, host);
  const kept = [output, ...files.written().map(([name, text]) => [name, textOfBytes(text)])];
  const live = [host.values, host.arrays, host.iterators].map((table) => table.live);
  return { told: JSON.stringify([end, kept, calls]), live, calls: calls.length };
}

const usual = run(() => {});
const anew = run((tables) => {
  for (const table of tables) Object.assign(table, { next: 1000, step: 7, free: { pop() {}, push() {} } });
});
const isSpent = ({ live }) => live[0] <= Number(values) && live[1] <= Number(arrays) && live[2] === 0;
const isWell = usual.told === anew.told && isSpent(usual) && isSpent(anew);
console.log(`${isWell ? "ok" : "FAILED"}, ${usual.calls} calls; alive: ${usual.live.join(" ")} and ${anew.live.join(" ")}`);
if (!isWell) console.log(`${usual.told}\n${anew.told}`);
exit(isWell ? 0 : 1);
