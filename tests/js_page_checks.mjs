// What tests/js_page tries in each page: from a server, and as one file from disk.

import assert from "node:assert/strict";
import { readFileSync } from "node:fs";
import { fileURLToPath } from "node:url";

const top = fileURLToPath(new URL("..", import.meta.url));
const TEST = `${top}js/test/modules`;

export const text = (id) => `document.getElementById(${JSON.stringify(id)}).textContent`;
export const set = (id, value) => `document.getElementById(${JSON.stringify(id)}).value = ${JSON.stringify(value)}`;
export const ready = 'document.querySelectorAll("#script li").length > 0 && document.getElementById("run").disabled === false';
const ended = 'document.getElementById("run").disabled === false && !document.getElementById("status").textContent.startsWith("Running")';

/** A file of the package's tests: its name, and its bytes in base64. */
const part = (name) => [name, readFileSync(`${TEST}/${name}`).toString("base64")];

/** Drops files, as `part` gives them, on the page. */
function dropped(files) {
  return `(() => { const all = new DataTransfer();
    for (const [name, text] of ${JSON.stringify(files)}) all.items.add(new File([Uint8Array.from(atob(text), (c) => c.charCodeAt(0))], name));
    document.dispatchEvent(new DragEvent("drop", { cancelable: true, dataTransfer: all })); })()`;
}

/** Drops a module and its script on the page. */
export async function open(page, name) {
  await page.value(dropped([part(`${name}.wasm`), part(`${name}.awk`)]));
  const first = readFileSync(`${TEST}/${name}.awk`, "utf8").split("\n")[0];
  await page.until(`document.querySelector("#script li").textContent === ${JSON.stringify(first)}`);
}

export async function run(page) {
  await page.key("Enter", { modifiers: 2 });
  await page.until(`!${text("status")}.startsWith("Not run")`);
  await page.until(ended);
}

const example = (name, file) => readFileSync(`${top}examples/${name}/${file}`, "utf8");

export const CHECKS = {
  async "an example prints its output"(page) {
    await run(page);
    assert.equal(await page.value(text("output")), example("access_log", "output"));
    assert.match(await page.value(text("status")), /^Ended with status 0 in [\d,]+ ms: 5 lines, \d+ bytes\.$/);
    assert.equal(await page.value('document.getElementById("error").hidden'), true);
  },
  async "an error shows its name, its line and its record"(page) {
    await open(page, "half");
    await page.value(set("standard", "8\n7\n"));
    await run(page);
    assert.equal(await page.value(text("output")), "4\n");
    const said = await page.value(text("error"));
    for (const part of ["awkwasm: Inexact", "Line 2 in half(): return n / 2", "Record 2 of the standard input: 7"]) assert.ok(said.includes(part), said);
    assert.equal(await page.value('document.querySelector("#script .faulty").textContent'), "  return n / 2");
    assert.match(await page.value(text("status")), /^Ended early, with status 2, /);
  },
  async "files are read, and what is written can be saved"(page) {
    await open(page, "copy");
    await page.value(`(() => { const all = new DataTransfer(); all.items.add(new File(["x\\ny\\n"], "a.txt"));
      document.dispatchEvent(new DragEvent("drop", { cancelable: true, dataTransfer: all })); })()`);
    await page.until('document.getElementById("words").value === "a.txt"');
    await run(page);
    assert.equal(await page.value(text("output")), "1: x\n2: y\n");
    assert.equal(await page.value(text("written")), "Save out");
    await page.value('document.querySelector("#files button").click()');
    assert.equal(await page.value('document.getElementById("words").value'), "");
  },
  async "each limit ends a script that goes on for ever"(page) {
    await open(page, "forever");
    await page.value(`${set("seconds", "0.5")}, ${set("steps", "1e9")}`);
    await run(page);
    assert.match(await page.value(text("error")), /^awkwasm: OutOfTime/);
    await page.value(`${set("seconds", "20")}, ${set("steps", "0.1")}`);
    await run(page);
    assert.match(await page.value(text("error")), /^awkwasm: OutOfSteps.*Line 1: /);
    await open(page, "endless");
    await page.value(set("steps", "1000"));
    await run(page);
    assert.match(await page.value(text("error")), /^awkwasm: WriteFailed The limit on output is reached/);
    assert.equal(await page.value(`${text("output")}.length`), 1024 * 1024);
  },
  async "the stop button and the key end a run"(page) {
    await open(page, "forever");
    await page.value(set("steps", "1e9"));
    for (const stop of [() => page.key("Escape"), () => page.value('document.getElementById("stop").click()')]) {
      await page.key("Enter", { modifiers: 2 });
      await page.until('document.getElementById("stop").disabled === false');
      await stop();
      await page.until(ended);
      assert.match(await page.value(text("status")), /^Stopped: 0 lines/);
    }
  },
  async "all controls are reached by the keyboard, and have names"(page) {
    await page.value("document.activeElement.blur()");
    const reached = [];
    for (let n = 0; n < 14; n++) {
      await page.key("Tab");
      reached.push(await page.value("document.activeElement.id"));
    }
    const due = ["example", "open", "script", "standard", "add", "words", "seconds", "steps", "most", "run", "output"];
    assert.deepEqual(due.filter((id) => !reached.includes(id)), [], `${reached}`);
    const spoken = await page.spoken();
    for (const name of ["button: Run", "button: Stop", "combobox: Example", "textbox: Words", "spinbutton: Seconds", "spinbutton: Million steps"]) {
      assert.ok(spoken.some((it) => it === name), `${name}: ${spoken.filter((it) => /^(button|combobox|textbox|spinbutton)/.test(it)).join("; ")}`);
    }
    assert.ok(spoken.some((it) => it.startsWith("status:")) && spoken.some((it) => it.startsWith("heading: Output")));
    assert.deepEqual(spoken.filter((it) => /^(button|combobox|textbox|spinbutton): $/.test(it)), []);
  },
  async "a script that is not the module's is told, and so is one alone"(page) {
    const note = () => page.value(text("note"));
    await page.value(dropped([part("half.awk")]));
    await page.until(`${text("status")}.startsWith("half.awk is a script, and this page runs modules.")`);
    await page.value(dropped([part("half.wasm")]));
    await page.until(`${text("note")}.startsWith("No script was opened")`);
    await page.value(dropped([part("copy.awk")]));
    await page.until(`${text("note")} === ""`);
    await page.value(set("standard", "7\n"));
    await run(page);
    assert.match(await note(), /^The module was not compiled from this script/);
    assert.equal((await page.value(text("error"))).includes("Line"), false);
    await page.value(dropped([["broken.awk", Buffer.from("{ print (").toString("base64")]]));
    await page.until(`${text("note")} === ""`);
    await run(page);
    assert.match(await note(), /^The module was not compiled from this script/);
    await page.value(dropped([part("half.awk")]));
    await page.until(`${text("note")} === ""`);
    await run(page);
    assert.match(await page.value(text("error")), /Line 2 in half\(\)/);
    assert.equal(await page.value('document.getElementById("example").selectedOptions[0].text'), "half.wasm");
  },
  async "what is no module is told"(page) {
    await page.value(dropped([["text.wasm", Buffer.from("BEGIN { }").toString("base64")]]));
    await page.until(`${text("note")}.startsWith("No script")`);
    await run(page);
    assert.match(await page.value(text("error")), /The file is not a module that awkwasm compiled\.$/);
  },
  async "names with spaces are read, and the words that were typed stay"(page) {
    await open(page, "copy");
    await page.value(set("words", "n=5"));
    for (const name of ["my log.txt", "b's.txt"]) await page.value(dropped([[name, Buffer.from(`${name}\n`).toString("base64")]]));
    assert.equal(await page.value('document.getElementById("words").value'), `n=5 "my log.txt" "b's.txt"`);
    await run(page);
    assert.equal(await page.value(text("output")), "1: my log.txt\n2: b's.txt\n");
    await page.value('document.querySelector("#files button").click()');
    assert.equal(await page.value('document.getElementById("words").value'), `n=5 "b's.txt"`);
  },
  async "another module ends a run, and what it printed is gone"(page) {
    await open(page, "endless");
    await page.value(`${set("steps", "1e9")}, ${set("most", "1e6")}, ${set("seconds", "60")}`);
    await page.key("Enter", { modifiers: 2 });
    await page.until(`${text("output")}.length > 0`);
    await open(page, "half");
    await page.until(ended);
    assert.deepEqual([await page.value(text("output")), await page.value(text("status"))], ["", "Not run yet."]);
  },
  async "of much output a beginning is shown, and that is told"(page) {
    await open(page, "endless");
    await page.value(set("most", "3000"));
    await run(page);
    assert.equal(await page.value(`${text("output")}.length`), 2_000_000);
    assert.match(await page.value(text("status")), /, 3,072,000 bytes; the first 2,000,000 bytes are shown, and all can be saved\.$/);
  },
  async "a limit that is no number becomes what it was"(page) {
    await page.value(`${set("seconds", "")}, ${set("steps", "-1")}`);
    await run(page);
    assert.match(await page.value(text("status")), /^Ended with status 0/);
    assert.deepEqual(await page.value('["seconds", "steps"].map((id) => document.getElementById(id).value)'), ["5", "100"]);
  },
  async "a large file is read in parts"(page) {
    await open(page, "copy");
    await page.value(`(() => { const all = new DataTransfer(), line = "x".repeat(1023) + "\\n";
      all.items.add(new File(Array(64).fill(line.repeat(1024)), "large"));
      document.dispatchEvent(new DragEvent("drop", { cancelable: true, dataTransfer: all })); })()`);
    await page.value(`${set("seconds", "55")}, ${set("steps", "1000")}, ${set("most", "200000")}`);
    await run(page);
    assert.match(await page.value(text("status")), /^Ended with status 0 in [\d,]+ ms: 65,536 lines/);
  },
  async "only files that are dropped are taken from the browser"(page) {
    const isTaken = (add) => page.value(`(() => { const dataTransfer = new DataTransfer(); ${add};
      return !document.dispatchEvent(new DragEvent("drop", { cancelable: true, dataTransfer })); })()`);
    assert.equal(await isTaken('dataTransfer.setData("text/plain", "marked")'), false);
    assert.equal(await isTaken('dataTransfer.items.add(new File(["x"], "f"))'), true);
  },
  async "text and controls stand out, by day and by night, and a narrow window needs no scrolling to the side"(page) {
    await open(page, "half");
    await page.value(set("standard", "7\n"));
    await run(page);
    for (const scheme of ["light", "dark"]) {
      await page.send("Emulation.setEmulatedMedia", { features: [{ name: "prefers-color-scheme", value: scheme }] });
      const faint = await page.value(FAINT);
      assert.deepEqual(faint, [], scheme);
    }
    await page.send("Emulation.setDeviceMetricsOverride", { width: 320, height: 600, deviceScaleFactor: 1, mobile: true });
    assert.equal(await page.value("document.documentElement.scrollWidth"), 320);
  },
};

// Texts whose contrast with their background is below 4.5, and controls whose edge has less than 3.
const FAINT = `(() => {
  const light = (c) => { const s = c / 255; return s <= 0.04045 ? s / 12.92 : ((s + 0.055) / 1.055) ** 2.4; };
  const parts = (colour) => colour.match(/[\\d.]+/g).map(Number);
  const bright = ([r, g, b]) => 0.2126 * light(r) + 0.7152 * light(g) + 0.0722 * light(b);
  const contrast = (a, b) => { const [low, high] = [bright(a), bright(b)].sort((x, y) => x - y); return (high + 0.05) / (low + 0.05); };
  const behind = (node) => { for (let it = node; it; it = it.parentElement) {
    const colour = parts(getComputedStyle(it).backgroundColor); if ((colour[3] ?? 1) > 0) return colour; } return [255, 255, 255]; };
  const faint = [];
  for (const node of document.body.querySelectorAll("*")) {
    if (node.disabled || node.getClientRects().length === 0) continue;
    const style = getComputedStyle(node);
    const hasText = [...node.childNodes].some((it) => it.nodeType === 3 && it.data.trim() !== "");
    if (hasText && contrast(parts(style.color), behind(node)) < 4.5) faint.push("text: " + node.outerHTML.slice(0, 80));
    const isControl = node.matches("input:not([type=file]), select, textarea, button, .button");
    if (isControl && contrast(parts(style.borderTopColor), behind(node.parentElement)) < 3) faint.push("edge: " + node.outerHTML.slice(0, 80));
  }
  return faint;
})()`;
