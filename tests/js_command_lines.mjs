// Command lines: `node js/awk.mjs` beside `awkwasm exec`, as processes, with files, pipes and a link.

import { existsSync, mkdirSync, readFileSync, readdirSync, rmSync, symlinkSync, writeFileSync } from "node:fs";

import { Counts, eachInTime, ran } from "./js_compare.mjs";

const INPUT = "a b c\n1 22 3\n\nx=1 0.5 abba\n10 1e1 10.0\n";

/** Scripts, each with words. A line of the file is a script, and after a tab its words, in JSON. */
function casesOf(top) {
  const lines = readFileSync(`${top}tests/command_lines`, "utf8").split("\n").filter((line) => line !== "" && !line.startsWith("#"));
  return lines.map((line) => line.split("\t")).map(([script, words]) => ({ script, words: JSON.parse(words ?? '["MODULE", "v=1", "file", "v=2", "-"]') }));
}

/** One run in a new folder: status, output, what was said, and the files that are there afterwards. */
async function answerOf(command, before, { words }, module, folder) {
  rmSync(folder, { recursive: true, force: true });
  mkdirSync(folder, { recursive: true });
  writeFileSync(`${folder}/file`, "first\nsecond\n");
  const given = words.map((word) => (word === "MODULE" ? module : word));
  const { status, out, said } = await ran(command, [...before, ...given], { cwd: folder, input: INPUT, env: { E: "7" } });
  const files = readdirSync(folder).sort().map((name) => [name, readFileSync(`${folder}/${name}`, "latin1")]);
  // what is said of a refused command line is each program's own
  return { status, out, said: status === 8 ? "" : said, files };
}

export async function compareCommandLines({ top, program, work, ...bounds }) {
  const counts = new Counts();
  const differing = [];
  const link = `${work}/awk.mjs`;
  symlinkSync(`${top}js/awk.mjs`, link);
  await eachInTime(casesOf(top), bounds, counts, async (it, n, lane) => {
    const folder = `${work}/lines.${lane}`;
    mkdirSync(folder, { recursive: true });
    writeFileSync(`${folder}/script`, it.script);
    const module = `${folder}/module`;
    const { status, said } = await ran(program, ["compile", `${folder}/script`, module]);
    if (status !== 0 || !existsSync(module)) {
      differing.push(`${it.script}: ${said}`);
      return;
    }
    const theirs = await answerOf(program, ["exec"], it, module, `${folder}/here`);
    const ours = await answerOf(process.execPath, [n % 2 === 0 ? `${top}js/awk.mjs` : link], it, module, `${folder}/here`);
    counts.add(`status ${theirs.status}`);
    const [due, got] = [theirs, ours].map((answer) => JSON.stringify(answer));
    if (due !== got) differing.push(`${it.script}\n  ${it.words}\n  due  ${due}\n  ours ${got}`);
  });
  return { what: "command lines", counts, differing };
}
