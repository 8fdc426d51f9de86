import assert from "node:assert/strict";
import { execFileSync, spawn, spawnSync } from "node:child_process";
import { chmodSync, existsSync, mkdtempSync, readFileSync, rmSync, symlinkSync, writeFileSync } from "node:fs";
import { tmpdir } from "node:os";
import { fileURLToPath } from "node:url";
import { after, test } from "node:test";

import { fenced, files, run, sourceOf, start, textOfBytes } from "awkwasm/node";
import { requestOf } from "../node/request.mjs";

const path = (name) => fileURLToPath(new URL(`./modules/${name}.wasm`, import.meta.url));
const module = (name) => readFileSync(path(name));
const awk = fileURLToPath(new URL("../awk.mjs", import.meta.url));
const folder = mkdtempSync(`${tmpdir()}/awkwasm.`);
after(() => rmSync(folder, { recursive: true }));

function called(words, { input = "", command = process.execPath } = {}) {
  const { status, stdout, stderr } = spawnSync(command, [awk, ...words], { cwd: folder, input, encoding: "utf8" });
  return { status, out: stdout, said: stderr };
}

test("the command line reads, prints and writes", () => {
  assert.deepEqual(called([path("copy")], { input: "a\nb\n" }), { status: 0, out: "1: a\n2: b\n", said: "" });
  assert.equal(readFileSync(`${folder}/out`, "utf8"), "a\nb\n");
});

test("errors have the statuses and lines of the program", () => {
  assert.deepEqual(called([path("half")], { input: "3\n" }), { status: 2, out: "", said: "awkwasm: Inexact\n" });
  assert.deepEqual(called(["-v", "depth", path("depth")]), { status: 2, out: "", said: "awkwasm: BadAssignment\n" });
  assert.deepEqual(called(["-v", "depth=9998", path("depth")]), { status: 0, out: "bottom\n", said: "" });
  assert.deepEqual(called(["-v", "depth=9999", path("depth")]), { status: 6, out: "", said: "awkwasm: Exhausted\n" });
  assert.equal(called([awk]).status, 3);
  assert.equal(called([]).status, 8);
  assert.equal(called(["none.wasm"]).status, 8);
  assert.equal(called(["-v"]).status, 8);
});

test("options are taken as they stand, and wherever they stand", () => {
  const printed = (...words) => called([path("words"), ...words]).out;
  assert.equal(printed("-F="), "[=] 0 awk\n");
  assert.equal(printed("-F=="), "[==] 0 awk\n");
  assert.equal(printed("-F=:"), "[=:] 0 awk\n");
  assert.equal(printed("-Ft"), "[t] 0 awk\n");
  assert.equal(printed("-F", ",", "a", "-v", "FS=x"), "[,] 0 awk 1 a\n");
  assert.equal(printed("a", "--", "--no-files", "--", "-F"), "[ ] 0 awk 1 a 2 --no-files 3 -- 4 -F\n");
  assert.equal(called([path("half"), "--no-files", "f"]).said, "awkwasm: OpenInput\n");
  for (const words of [["-F", "-+"], ["-F"], ["-x"], ["--no-files", "--no-files"], ["--streams="], ["--may-read"], ["--stream"]]) assert.equal(called([path("words"), ...words]).status, 8, words.join(" "));
  assert.deepEqual(called(["-v=x=1", path("words")]), { status: 2, out: "", said: "awkwasm: BadAssignment\n" });
});

test("a refused command line is told without control characters, and help that can not be written has a status", () => {
  const told = called(["--x\x1b[31m", path("half")]);
  assert.equal(told.status, 8);
  assert.match(told.said, /^awk\.mjs: unknown option --x\\033\[31m\n\nusage: /);
  assert.deepEqual(called(["no\x1b.wasm"]), { status: 8, out: "", said: "awk.mjs: cannot read no\\033.wasm (ENOENT)\n" });
  assert.match(called(["-h"]).out, /^usage: /);
  if (!existsSync("/dev/full")) return;
  const { status, stderr } = spawnSync("sh", ["-c", `'${process.execPath}' '${awk}' --help >/dev/full`], { encoding: "utf8" });
  assert.deepEqual([status, stderr], [8, "awk.mjs: cannot write (ENOSPC)\n"]);
});

test("a slow pipe, and one that another process has made non-blocking", () => {
  const line = `(sleep 0.2; echo a; sleep 0.3; echo b) | '${process.execPath}' '${awk}' '${path("copy")}' | (sleep 0.4; cat)`;
  assert.equal(execFileSync("sh", ["-c", line], { cwd: folder, encoding: "utf8" }), "1: a\n2: b\n");
  const other = `(sleep 0.3; echo a) | ('${process.execPath}' -e 'process.stdin; process.exit()'; '${process.execPath}' '${awk}' '${path("copy")}')`;
  assert.equal(execFileSync("sh", ["-c", other], { cwd: folder, encoding: "utf8" }), "1: a\n");
});

test("output that nobody reads is a write that fails", () => {
  const line = `('${process.execPath}' '${awk}' '${path("endless")}'; echo $? >status) | head -n 1`;
  assert.equal(execFileSync("sh", ["-c", line], { cwd: folder, encoding: "utf8", stdio: ["ignore", "pipe", "ignore"] }), "a line\n");
  assert.equal(readFileSync(`${folder}/status`, "utf8"), "2\n");
});

test("a call through a link", () => {
  symlinkSync(awk, `${folder}/link`);
  chmodSync(awk, 0o755);
  assert.equal(execFileSync(process.execPath, [`${folder}/link`, path("copy")], { cwd: folder, input: "a\n", encoding: "utf8" }), "1: a\n");
});

test("words that are not UTF-8 are refused, and such entries of the environment are left out", () => {
  const status = (word, more = "") => spawnSync("sh", ["-c", `${more} '${process.execPath}' '${awk}' '${path("half")}' "${word}"`], { cwd: folder }).status;
  assert.equal(status("$(printf '\\377')"), 8);
  assert.equal(status("n=\u{fffd}"), 0);
  assert.equal(status("n=5", "env X=$(printf '\\377')"), 0);
});

test("lines come out as they come in", async () => {
  const child = spawn(process.execPath, [awk, path("copy")], { cwd: folder });
  const next = () => new Promise((resolve) => child.stdout.once("data", (part) => resolve(String(part))));
  for (const [n, line] of ["first", "second"].entries()) {
    const told = next();
    child.stdin.write(`${line}\n`);
    assert.equal(await told, `${n + 1}: ${line}\n`);
  }
  child.stdin.end();
  assert.equal(await new Promise((resolve) => child.on("exit", resolve)), 0);
});

test("fences keep files from a script", () => {
  writeFileSync(`${folder}/f`, "x\n");
  const said = "awkwasm: OpenInput\n";
  assert.deepEqual(called(["--no-files", path("half"), "f"]), { status: 2, out: "", said });
  assert.deepEqual(called(["--read-only", path("copy"), "f"]), { status: 2, out: "1: x\n", said: "awkwasm: OpenOutput\n" });
  assert.deepEqual(called(["--only-operands", path("half"), "f"]), { status: 0, out: "0\n", said: "" });
});

test("each option takes names away, but for those that are listed", () => {
  const cases = [
    // options, and which of d, o, the operand p and another name may be read and written
    [[], "dopx", "dopx"],
    [["--may-write", "o"], "dopx", "o"],
    [["--may-read", "d"], "d", "dopx"],
    [["--may-read=d", "--may-read=x"], "dx", "dopx"],
    [["--read-only"], "dopx", ""],
    [["--read-only", "--may-write", "o"], "dopx", "o"],
    [["--no-files"], "", ""],
    [["--no-files", "--may-read", "d"], "d", ""],
    [["--no-files", "--may-read", "d", "--may-write", "o"], "d", "o"],
    [["--only-operands"], "p", ""],
    [["--only-operands", "--may-read", "d"], "dp", ""],
    [["--only-operands", "--may-write", "o"], "p", "o"],
    [["--only-operands", "--no-files"], "", ""],
  ];
  const taken = (fence) => [fence.mayRead, fence.mayWrite].map((may) => [..."dopx"].filter((name) => may(name)).join(""));
  for (const [options, ...due] of cases) assert.deepEqual(taken(requestOf([...options, "module", "p"]).fence), due, options.join(" "));
});

test("names of streams pass every fence, and are names of files without --streams", () => {
  const names = ["/dev/stdin", "/dev/stdout", "/dev/stderr"];
  const taken = (...options) => {
    const { mayRead, mayWrite } = requestOf(["--no-files", ...options, "module"]).fence;
    return [names.filter(mayRead), names.filter(mayWrite)];
  };
  assert.deepEqual(taken(), [[], []]);
  assert.deepEqual(taken("--streams"), [[names[0]], names.slice(1)]);
});

test("lists of names let files through", () => {
  writeFileSync(`${folder}/f`, "8\n");
  writeFileSync(`${folder}/g`, "6\n");
  assert.deepEqual(called(["--may-read", "f", path("half"), "f", "g"]), { status: 2, out: "4\n", said: "awkwasm: OpenInput\n" });
  assert.deepEqual(called(["--no-files", "--may-read=f", "--may-read=g", path("half"), "f", "g"]), { status: 0, out: "4\n3\n", said: "" });
  assert.deepEqual(called(["--read-only", "--may-write", "out", path("copy"), "f"]), { status: 0, out: "1: 8\n", said: "" });
  assert.equal(called(["--may-write", "./out", path("copy"), "f"]).said, "awkwasm: OpenOutput\n");
});

test("limits on input and output", () => {
  writeFileSync(`${folder}/f`, "8\n6\n");
  assert.deepEqual(called(["--most-input", "4", path("half"), "f"]), { status: 0, out: "4\n3\n", said: "" });
  assert.deepEqual(called(["--most-input=3", path("half"), "f"]), { status: 2, out: "4\n", said: "awkwasm: ReadFailed\n" });
  assert.deepEqual(called(["--most-output", "3", path("half"), "f"]), { status: 2, out: "4\n3", said: "awkwasm: WriteFailed\n" });
  assert.deepEqual(called(["--most-output=4", path("half"), "f"]), { status: 0, out: "4\n3\n", said: "" });
  // "1: 8" with its newline, "8\n", and 2 of the 5 bytes of the second line
  assert.deepEqual(called(["--most-output", "9", path("copy"), "f"]), { status: 2, out: "1: 8\n2:", said: "awkwasm: WriteFailed\n" });
  assert.equal(readFileSync(`${folder}/out`, "utf8"), "8\n");
  for (const words of [["-1"], ["1.5"], [""], ["18446744073709551616"], []]) assert.equal(called([path("half"), "--most-input", ...words]).status, 8, words.join());
  assert.equal(called(["--most-input", "18446744073709551615", path("half"), "f"]).status, 0);
});

test("no more than one byte past the limit on input is taken from a stream that others read too", () => {
  const line = `printf '8\\n6\\n4\\n' >six; ('${process.execPath}' '${awk}' --most-input 2 '${path("half")}' 2>&1; cat) <six`;
  assert.equal(execFileSync("sh", ["-c", line], { cwd: folder, encoding: "utf8" }), "4\nawkwasm: ReadFailed\n\n4\n");
});

test("with --streams the names of streams mean them, in order with the other output", () => {
  const line = (...options) => `printf 'a\\nb\\n' | '${process.execPath}' '${awk}' ${options.join(" ")} '${path("streams")}' >both 2>&1`;
  execFileSync("sh", ["-c", line("--streams", "--no-files")], { cwd: folder });
  const due = (it) => `main ${it}\nto errors\nto output\nnamed \nclosed 0\n`;
  assert.equal(readFileSync(`${folder}/both`, "utf8"), due("a") + due("b"));
  assert.throws(() => execFileSync("sh", ["-c", line("--no-files")], { cwd: folder }), { status: 2 });
  assert.equal(readFileSync(`${folder}/both`, "utf8"), "main a\nawkwasm: OpenOutput\n");
});

test("a fence of many operands is asked in a time that does not grow with them", () => {
  const names = Array.from({ length: 100_000 }, (_, n) => `none/${n}`);
  const before = process.cpuUsage().user;
  const { fence } = requestOf(["--only-operands", "module", ...names]);
  assert.ok(names.every((name) => fence.mayRead(name)) && !fence.mayRead("module"));
  assert.ok(process.cpuUsage().user - before < 5e6);
});

test("a fence of one's own", () => {
  const inner = { ...files, standard: () => sourceOf("a\n"), output: { write() {} } };
  const elsewhere = fenced({ mayWrite: (name) => name === "elsewhere" }, inner);
  assert.equal(run(module("copy"), {}, elsewhere).name, "OpenOutput");
});

async function* slowly(...parts) {
  for (const part of parts) {
    await new Promise((resolve) => setTimeout(resolve, 20));
    yield part;
  }
}

test("a worker reads a stream as it comes", async () => {
  const seen = [];
  const { end } = start({ module: module("copy"), standard: slowly("a\n", "b", "c\n"), onOutput: (part) => seen.push(textOfBytes(part)) });
  const { kind, written } = await end;
  assert.deepEqual([kind, seen.join("")], ["ended", "1: a\n2: bc\n"]);
  assert.ok(seen.length >= 2);
  assert.deepEqual(written.map(([name, bytes]) => [name, textOfBytes(bytes)]), [["out", "a\nbc\n"]]);
});

test("a worker reads a ReadableStream, a Blob and files", async () => {
  const stream = new Blob(["8\n6\n"]).stream();
  assert.equal(textOfBytes((await start({ module: module("half"), standard: stream }).end).output), "4\n3\n");
  const given = { module: module("half"), files: { é: new Blob(["10\n"]), f: "2\n" }, operands: ["é", "f"] };
  assert.equal(textOfBytes((await start(given).end).output), "5\n1\n");
});

test("the end of a run ends its stream", async () => {
  const closed = [];
  async function* lines() {
    try {
      for (;;) yield "a\n";
    } finally {
      closed.push("generator");
    }
  }
  assert.equal((await start({ module: module("endless"), standard: lines(), limits: { output: 10 } }).end).name, "WriteFailed");
  assert.equal((await start({ module: module("copy"), standard: lines(), limits: { output: 10 } }).end).name, "WriteFailed");
  const silent = new ReadableStream({ cancel: () => { closed.push("silent stream"); } });
  assert.equal((await start({ module: module("copy"), standard: silent, limits: { seconds: 0.5 } }).end).kind, "time");
  assert.deepEqual(closed, ["generator", "silent stream"]);
});

test("a program whose standard input stays open can end", async () => {
  const text = `import { start } from ${JSON.stringify(new URL("../node/index.mjs", import.meta.url))}; import { readFileSync } from "node:fs";
    const { end } = start({ module: readFileSync(${JSON.stringify(path("copy"))}), standard: process.stdin, limits: { seconds: 0.5 } });
    console.log((await end).kind);`;
  const child = spawn(process.execPath, ["--input-type=module", "-e", text], { cwd: folder, stdio: ["pipe", "pipe", "inherit"] });
  child.stdin.write("a\n");
  let out = "";
  child.stdout.on("data", (part) => { out += part; });
  assert.equal(await new Promise((resolve) => child.on("exit", resolve)), 0);
  assert.equal(out, "time\n");
});

test("an error of the caller's function ends the run", async () => {
  const onOutput = () => { throw new Error("mine"); };
  await assert.rejects(start({ module: module("endless"), onOutput }).end, new Error("mine"));
});

test("a time that is longer than timers go is no short one", async () => {
  assert.equal((await start({ module: module("half"), standard: "8\n", limits: { seconds: 1e9, steps: Infinity } }).end).kind, "ended");
});

test("limits on time, steps and output, and a stop", async () => {
  const kindOf = async (name, limits) => (await start({ module: module(name), limits }).end).kind;
  assert.equal(await kindOf("forever", { seconds: 0.3 }), "time");
  assert.equal(await kindOf("forever", { steps: 1e5 }), "steps");
  const full = await start({ module: module("endless"), limits: { output: 1000 } }).end;
  assert.deepEqual([full.name, full.output.length, full.isOutputFull], ["WriteFailed", 1000, true]);
  const running = start({ module: module("forever") });
  setTimeout(running.stop, 200);
  assert.equal((await running.end).kind, "stopped");
  const soon = start({ module: module("forever") });
  soon.stop();
  assert.equal((await soon.end).kind, "stopped");
});

/** A module of so many functions of 50,000 locals, each of 9 bytes, and of a `main` that answers 0. */
function ofManyLocals(functions) {
  const number = (n) => (n < 128 ? [n] : [(n & 127) | 128, ...number(n >> 7)]);
  const section = (id, ...body) => [id, ...number(body.flat().length), ...body.flat()];
  const each = (entry) => Array.from({ length: functions }, () => entry).flat();
  const [I32, I64] = [0x7f, 0x7e];
  const one = [8, 1, ...number(50_000), I64, 0x41, 0, 0x0b];
  return Uint8Array.from([
    0, 0x61, 0x73, 0x6d, 1, 0, 0, 0, ...section(1, [1, 0x60, 0, 1, I32]), ...section(3, number(functions + 1), each([0]), [0]),
    ...section(7, [1, 4, ...Buffer.from("main"), 0], number(functions)), ...section(10, number(functions + 1), each(one), [4, 0, 0x41, 0, 0x0b]),
  ]);
}

test("a module of many locals takes memory in proportion to its bytes", () => {
  const bytes = ofManyLocals(15_000);
  writeFileSync(`${folder}/locals.wasm`, bytes);
  const text = `import { readFileSync } from "node:fs"; import { filesInMemory, load, run } from ${JSON.stringify(new URL("../core/index.mjs", import.meta.url))};
    const { kind } = run(load(readFileSync("locals.wasm")), {}, filesInMemory()); console.log(kind, process.resourceUsage().maxRSS);`;
  const [kind, kilobytes] = execFileSync(process.execPath, ["--input-type=module", "-e", text], { cwd: folder, encoding: "utf8" }).split(" ");
  assert.equal(kind, "ended");
  // the engine takes some 50 MB without a module; with a byte for each local it would be 800 MB
  assert.ok(Number(kilobytes) < 300_000, kilobytes);
});

test("a worker says why a module is refused", async () => {
  const { kind, status } = await start({ module: Buffer.from("no module") }).end;
  assert.deepEqual([kind, status], ["refused", 3]);
});
