// Words and environment as bytes. Node.js replaces bytes that are not UTF-8; Linux keeps the originals in files.

import { readFileSync } from "node:fs";

import { isUtf8 } from "../core/index.mjs";

const REPLACED = "\ufffd";

function partsOf(path) {
  try {
    return readFileSync(path, "latin1").split("\0").slice(0, -1);
  } catch {
    return null;
  }
}

/** Whether the words of the command line were UTF-8 before Node.js read them. */
export function areUtf8(words) {
  return !words.some((word) => word.includes(REPLACED)) || (partsOf("/proc/self/cmdline") ?? []).every(isUtf8);
}

/** The environment of the process as texts, sorted by name, without entries that are not UTF-8. */
export function environment() {
  const entries = partsOf("/proc/self/environ") ?? Object.entries(process.env).map(([name, value]) => Buffer.from(`${name}=${value}`).toString("latin1"));
  const pairs = entries.filter((it) => isUtf8(it) && it.includes("=")).map((it) => [it.slice(0, it.indexOf("=")), it.slice(it.indexOf("=") + 1)]);
  return pairs.sort(([a], [b]) => (a < b ? -1 : a > b ? 1 : 0));
}
