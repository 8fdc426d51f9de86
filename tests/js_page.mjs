// What tests/js_page runs: see there.

import assert from "node:assert/strict";
import { execFileSync } from "node:child_process";
import { createServer } from "node:http";
import { mkdtempSync, readFileSync, rmSync, writeFileSync } from "node:fs";
import { tmpdir } from "node:os";
import { fileURLToPath, pathToFileURL } from "node:url";

import { Chromium } from "./chromium.mjs";
import { CHECKS, open, ready, run, set, text } from "./js_page_checks.mjs";

const top = fileURLToPath(new URL("..", import.meta.url));
const TYPES = { html: "text/html", css: "text/css", mjs: "text/javascript", wasm: "application/wasm" };
// with these a page may share memory with its workers
const ISOLATED = { "cross-origin-opener-policy": "same-origin", "cross-origin-embedder-policy": "require-corp" };

/** A server of the repository's files, on this machine alone. */
function serve() {
  const server = createServer((request, answer) => {
    const path = new URL(request.url, "http://localhost").pathname;
    try {
      const body = readFileSync(`${top}${path.slice(1)}`);
      answer.writeHead(200, { "content-type": TYPES[path.split(".").pop()] ?? "text/plain", ...ISOLATED }).end(body);
    } catch {
      answer.writeHead(404).end();
    }
  });
  return new Promise((resolve) => server.listen(0, "127.0.0.1", () => resolve(server)));
}

// In a page of a server: a stream is given a line each time that the line before it has come out.
const STREAM = `(async () => {
  const { start } = await import("/js/browser/index.mjs");
  const module = await (await fetch("/js/test/modules/copy.wasm")).arrayBuffer();
  const seen = [];
  let give, told;
  const standard = new ReadableStream({ start(controller) { give = controller; } });
  const { end } = start({ module, standard, onOutput: (bytes) => { seen.push(new TextDecoder().decode(bytes)); told(); } });
  for (const line of ["a\\n", "b\\n"]) {
    const out = new Promise((resolve) => { told = resolve; });
    give.enqueue(new TextEncoder().encode(line));
    await out;
  }
  give.close();
  return JSON.stringify([crossOriginIsolated, seen, (await end).kind]);
})()`;

/** What only a page of a server can do. */
async function checkStream(page) {
  assert.equal(await page.value(STREAM), JSON.stringify([true, ["1: a\n", "2: b\n"], "ended"]));
}

/** Opened from disk in its parts the page can not start, and says what it needs. */
async function checkParts(page) {
  await page.until('document.readyState === "complete"');
  assert.match(await page.value(text("status")), /does not run the page's program: it needs a server, or the page as one file/);
}

/** The example of a page of one's own. */
async function checkExample(page) {
  await page.until('document.getElementById("count") !== null && document.readyState === "complete"');
  await page.value('document.getElementById("count").click()');
  await page.until(`${text("status")} === "ended with status 0"`);
  assert.match(await page.value(text("output")), /\bthe\b/);
}

/** A screenshot of a run that has printed something and ended by an error. */
async function shot(page, path) {
  await open(page, "half");
  await page.value(set("standard", "8\n6\n7\n"));
  await run(page);
  writeFileSync(path, await page.screenshot());
}

/** Tries one check in a page of its own, once it is ready; 1 if it fails. */
async function tried(chromium, where, url, what, check, begun = ready) {
  const page = await chromium.page(url);
  await page.until(begun);
  const error = await check(page).then(() => null, (it) => it);
  console.log(`${error === null ? "ok" : "FAILED"}, ${where}: ${what}${error === null ? "" : `\n${error.message}`}`);
  return Number(error !== null);
}

async function main() {
  const work = mkdtempSync(`${tmpdir()}/js_page.`);
  const server = await serve();
  const chromium = new Chromium(process.env.CHROMIUM);
  let failed = 0;
  try {
    execFileSync(process.execPath, [`${top}js/page/make.mjs`, `${work}/page.html`]);
    const urls = [["from a server", `http://127.0.0.1:${server.address().port}/js/page/index.html`], ["from disk", pathToFileURL(`${work}/page.html`).href]];
    for (const [where, url] of urls) {
      const checks = url.startsWith("http") ? { ...CHECKS, "a stream is read as it comes": checkStream } : CHECKS;
      for (const [what, check] of Object.entries(checks)) failed += await tried(chromium, where, url, what, check);
    }
    const example = `http://127.0.0.1:${server.address().port}/examples/embedding/page.html`;
    failed += await tried(chromium, "from a server", example, "the example of a page of one's own", checkExample, "true");
    const parts = pathToFileURL(`${top}js/page/index.html`).href;
    failed += await tried(chromium, "from disk", parts, "the page in its parts says what it needs", checkParts, "true");
    const [path] = process.argv.slice(2);
    if (path !== undefined) {
      const page = await chromium.page(urls[0][1]);
      await page.until(ready);
      await shot(page, path);
    }
  } finally {
    await chromium.close();
    server.close();
    rmSync(work, { recursive: true, force: true });
  }
  process.exitCode = failed === 0 ? 0 : 1;
}

await main();
