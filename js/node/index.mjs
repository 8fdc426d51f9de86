// Files of the machine for Node.js, and a worker with limits.
//
// `process` is the global one: to import from "node:process" opens the standard input, and makes it non-blocking.

import { closeSync, openSync, readSync, writeSync } from "node:fs";

import { bytesOfText, isUtf8, textOfBytes } from "../core/index.mjs";

export * from "../core/index.mjs";
export { start } from "./start.mjs";

const PART = 65_536;
const FIRST_PAUSE = 1;
const LONGEST_PAUSE = 50;

function pause(milliseconds) {
  Atomics.wait(new Int32Array(new SharedArrayBuffer(4)), 0, 0, milliseconds);
}

/** Does what may have to wait: another process may have made the stream non-blocking. */
function waiting(act) {
  for (let wait = FIRST_PAUSE; ; wait = Math.min(2 * wait, LONGEST_PAUSE)) {
    try {
      return act();
    } catch (error) {
      if (error.code !== "EAGAIN") throw error;
    }
    pause(wait);
  }
}

/** A stream that is open for reading. A read gives what is there, and waits only for the first byte. */
class FileSource {
  constructor(descriptor) {
    this.descriptor = descriptor;
  }

  read(most = PART) {
    const part = new Uint8Array(Math.min(most, PART));
    const length = waiting(() => this.readSome(part));
    return length === 0 ? null : part.subarray(0, length);
  }

  readSome(part) {
    try {
      return readSync(this.descriptor, part);
    } catch (error) {
      // what a terminal or a pipe of Windows says at its end
      if (error.code === "EOF") return 0;
      throw error;
    }
  }

  close() {
    if (this.descriptor > 0) closeSync(this.descriptor);
  }
}

/** A stream that is open for writing. */
class FileOutlet {
  constructor(descriptor) {
    this.descriptor = descriptor;
  }

  write(bytes) {
    for (let at = 0; at < bytes.length; ) at += waiting(() => writeSync(this.descriptor, bytes, at));
  }

  close() {
    closeSync(this.descriptor);
  }
}

/** Opens a file, if its name is not empty and is UTF-8. */
function opened(Kind, name, flags) {
  if (name === "" || !isUtf8(name)) return null;
  try {
    return new Kind(openSync(bytesOfText(name), flags));
  } catch {
    return null;
  }
}

/** The standard error of the process. */
export const errors = new FileOutlet(2);

/** The files of the machine, and the standard streams of the process. */
export const files = {
  output: new FileOutlet(1),
  standard: () => new FileSource(0),
  open: (name) => opened(FileSource, name, "r"),
  create: (name, append) => opened(FileOutlet, name, append ? "a" : "w"),
};

/** The same files behind a fence: the names that `mayRead` and `mayWrite` do not take do not open. */
export function fenced({ mayRead = () => false, mayWrite = () => false }, inner = files) {
  return {
    output: inner.output,
    standard: () => inner.standard(),
    open: (name) => (mayRead(name) ? inner.open(name) : null),
    create: (name, append) => (mayWrite(name) ? inner.create(name, append) : null),
  };
}

/** The environment of the process, sorted by name. */
export function environmentOf(env = globalThis.process.env) {
  const texts = Object.entries(env).map((pair) => pair.map((word) => textOfBytes(new TextEncoder().encode(word))));
  return texts.sort(([a], [b]) => (a < b ? -1 : 1));
}
