// Files in memory.

import { bytesOfText, checked } from "./bytes.mjs";

const PART = 65_536;

/** A file that is written in memory, or read. */
class MemoryFile {
  constructor(bytes) {
    this.bytes = bytes;
    this.length = bytes.length;
  }

  contents() {
    return this.bytes.subarray(0, this.length);
  }

  put(at, part) {
    if (at + part.length > this.bytes.length) {
      const room = new Uint8Array(2 * (at + part.length));
      room.set(this.contents());
      this.bytes = room;
    }
    this.bytes.set(part, at);
    this.length = Math.max(this.length, at + part.length);
  }
}

class MemorySource {
  constructor(file) {
    this.file = file;
    this.at = 0;
  }

  read() {
    if (this.at >= this.file.length) return null;
    // a copy, as the file may change: slice of Node's arrays would share its bytes
    const part = new Uint8Array(this.file.bytes.subarray(this.at, Math.min(this.at + PART, this.file.length)));
    this.at += part.length;
    return part;
  }
}

class MemoryOutlet {
  constructor(file, append) {
    this.file = file;
    this.append = append;
    this.at = 0;
  }

  write(part) {
    const at = this.append ? this.file.length : this.at;
    this.file.put(at, part);
    this.at = at + part.length;
  }
}

const bytesIn = (given) => (typeof given === "string" ? bytesOfText(checked(given)) : given);

/** A source of bytes, or of a text. */
export function sourceOf(given) {
  return new MemorySource(new MemoryFile(bytesIn(given)));
}

/**
 * Files in memory. `named` has what there is at the start: bytes, texts, or functions that make a source. `standard` is the same for the standard
 * input, and `output` gets each part of the standard output. `written()` gives the names that were written, with their bytes.
 */
export function filesInMemory({ named = [], standard = "", output = () => {} } = {}) {
  const held = new Map(named);
  const written = new Set();
  const fileOf = (name) => {
    const given = held.get(name);
    if (given === undefined || typeof given === "function" || given instanceof MemoryFile) return given;
    held.set(name, new MemoryFile(bytesIn(given)));
    return held.get(name);
  };
  return {
    output: { write: output },
    standard: () => (typeof standard === "function" ? standard() : sourceOf(standard)),
    open(name) {
      const file = fileOf(name);
      if (file === undefined) return null;
      return typeof file === "function" ? file() : new MemorySource(file);
    },
    create(name, append) {
      const there = fileOf(name);
      if (typeof there === "function") return null;
      const file = there ?? new MemoryFile(new Uint8Array(0));
      if (!append) file.length = 0;
      held.set(name, file);
      written.add(name);
      return new MemoryOutlet(file, append);
    },
    written: () => [...written].map((name) => [name, held.get(name).contents()]),
  };
}
