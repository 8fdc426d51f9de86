// What tests/wasm_tools runs: see there.

import { execFileSync, spawnSync } from "node:child_process";
import { mkdirSync, mkdtempSync, readFileSync, readdirSync, realpathSync, rmSync, writeFileSync } from "node:fs";
import { tmpdir } from "node:os";
import { fileURLToPath } from "node:url";

import { linesOf } from "../js/core/places.mjs";
import { randomScripts } from "./random_scripts.mjs";

const top = fileURLToPath(new URL("..", import.meta.url));
const program = realpathSync(process.argv[2] ?? `${top}crates/awkwasm/out/awkwasm`);
const RANDOM = 40;
const SEED = 7;
const INPUT = "a b\nb c d\n\n12 0.5\n";
// WebAssembly 1.0 alone
const OLD = ["--disable-sign-extension", "--disable-multi-value", "--disable-bulk-memory", "--disable-reference-types", "--disable-mutable-globals",
  "--disable-saturating-float-to-int", "--disable-simd"];

const tool = (name, ...words) => execFileSync(name, words, { encoding: "latin1", stdio: ["ignore", "pipe", "pipe"] });

/** The scripts that are tried: name, text and input. */
function* scripts() {
  for (const folder of readdirSync(`${top}examples`)) {
    const has = (name) => readdirSync(`${top}examples/${folder}`).includes(name);
    if (!readdirSync(`${top}examples`, { withFileTypes: true }).find(({ name }) => name === folder).isDirectory() || !has("script.awk")) continue;
    const read = (name) => readFileSync(`${top}examples/${folder}/${name}`, "latin1");
    yield { name: folder, script: read("script.awk"), input: read("input") };
  }
  for (const [n, script] of randomScripts(RANDOM, SEED).entries()) yield { name: `random script ${n}`, script, input: INPUT };
}

/** The section of names that is due: the functions of a script and `main`, after so many imports. */
function namesSection(script, imports) {
  const names = linesOf(script).map(({ name }) => name);
  const counted = (bytes) => [...leb(bytes.length), ...bytes];
  const entries = names.flatMap((name, n) => [...leb(imports + n), ...counted(Buffer.from(name))]);
  const functions = [1, ...counted([...leb(names.length), ...entries])];
  return Buffer.from([0, ...counted([...counted(Buffer.from("name")), ...functions])]);
}

const leb = (n) => (n < 128 ? [n] : [(n & 127) | 128, ...leb(n >> 7)]);

/** How a module runs: status, output, message, and files. */
function answer(words, input, work) {
  const here = `${work}/here`;
  rmSync(here, { recursive: true, force: true });
  mkdirSync(here);
  const { status, stdout, stderr } = spawnSync(words[0], words.slice(1), { cwd: here, input: Buffer.from(input, "latin1"), encoding: "latin1" });
  return JSON.stringify([status, stdout, stderr, readdirSync(here).map((name) => [name, readFileSync(`${here}/${name}`, "latin1")])]);
}

/** What is wrong with a module: nothing, or the name of what differs. */
function wrongOf({ script, input }, work) {
  const [module, named, best, text, back] = ["module.wasm", "named.wasm", "best.wasm", "module.wat", "back.wasm"].map((name) => `${work}/${name}`);
  tool("wasm-validate", ...OLD, module);
  tool("wasm2wat", module, "-o", text);
  tool("wat2wasm", text, "-o", back);
  if (!readFileSync(module).equals(readFileSync(back))) return "wasm2wat and back";
  const bytes = readFileSync(module);
  const imports = WebAssembly.Module.imports(new WebAssembly.Module(bytes)).length;
  tool(program, "compile", "--lines", `${work}/script`, named);
  const withNames = Buffer.concat([bytes, namesSection(script, imports)]);
  if (!readFileSync(named).subarray(0, withNames.length).equals(withNames)) return "the section of names";
  tool("wasm-validate", ...OLD, named);
  const listed = tool("wasm-objdump", "-x", "-j", "Function", named);
  const isListed = ({ name }, n) => listed.includes(`func[${imports + n}] sig=`) && listed.includes(`<${name}>`);
  if (!linesOf(script).every(isListed)) return "wasm-objdump";
  tool("wasm-opt", "--mvp-features", "-O3", module, "-o", best);
  tool("wasm-validate", ...OLD, best);
  const due = answer([program, "exec", module], input, work);
  for (const it of [named, best]) {
    if (answer([program, "exec", it], input, work) !== due) return `${it} in the program`;
    if (answer([process.execPath, `${top}js/awk.mjs`, it], input, work) !== due) return `${it} in Node.js`;
  }
  return null;
}

const work = mkdtempSync(`${tmpdir()}/wasm_tools.`);
let [tried, wrong, refused, before, after] = [0, 0, 0, 0, 0];
try {
  for (const it of scripts()) {
    writeFileSync(`${work}/script`, it.script, "latin1");
    if (spawnSync(program, ["compile", `${work}/script`, `${work}/module.wasm`]).status !== 0) {
      refused++;
      continue;
    }
    const why = wrongOf(it, work);
    tried++;
    before += readFileSync(`${work}/module.wasm`).length;
    after += why === null ? readFileSync(`${work}/best.wasm`).length : 0;
    wrong += Number(why !== null);
    if (why !== null) console.log(`${it.name}: ${why}`);
  }
} finally {
  rmSync(work, { recursive: true });
}
console.log(`${tried} modules, ${refused} scripts refused by compile, ${wrong} wrong; ${before} bytes, ${after} after wasm-opt -O3`);
process.exitCode = wrong === 0 && tried > 0 ? 0 : 1;
