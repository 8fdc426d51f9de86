// What the worker does: one run, whose output it posts in parts.

import { LoadError } from "../core/binary.mjs";
import { joined } from "../core/bytes.mjs";
import { withMostOutput } from "../core/limits.mjs";
import { load } from "../core/load.mjs";
import { filesInMemory } from "../core/memory.mjs";
import { STATUS, run } from "../core/run.mjs";
import { pipeSource } from "./pipe.mjs";

const PART = 65_536;
const LONGEST_WAIT = 50;

/** A Blob, or a file of a browser, read a part at a time. Workers alone can do that. */
function blobSource(blob) {
  const reader = new FileReaderSync();
  let at = 0;
  return {
    read() {
      if (at >= blob.size) return null;
      const part = new Uint8Array(reader.readAsArrayBuffer(blob.slice(at, at + PART)));
      at += part.length;
      return part;
    },
  };
}

const isBlob = (given) => typeof Blob !== "undefined" && given instanceof Blob;

/** Output that is gathered, and posted when there is much of it, when some time has passed, or when the run waits. */
function gathered(post) {
  let parts = [];
  let length = 0;
  let since = 0;
  const flush = () => {
    if (length > 0) post({ output: joined(parts) });
    parts = [];
    length = 0;
  };
  const write = (bytes) => {
    if (length === 0) since = performance.now();
    parts.push(new Uint8Array(bytes));
    length += bytes.length;
    if (length >= PART || performance.now() - since > LONGEST_WAIT) flush();
  };
  return { write, flush };
}

function standardOf(standard, output, post) {
  if (isBlob(standard)) return () => blobSource(standard);
  if (standard?.pipe === undefined) return standard;
  return () => pipeSource(standard.pipe, () => {
    output.flush();
    post({ wants: true });
  });
}

function ended(module, invocation, files, limits) {
  try {
    const loaded = load(module, { steps: limits.steps ?? null });
    return { ...run(loaded, invocation, files), places: loaded.places };
  } catch (error) {
    if (error instanceof LoadError || error instanceof WebAssembly.CompileError) return { kind: "refused", status: STATUS.refused, name: error.message };
    throw error;
  }
}

/** Runs a module as a message of `start` says, and posts its output, what it wants of the standard input, and how it ended. */
export function runJob({ module, invocation, files, standard, limits }, post) {
  const output = gathered(post);
  const named = files.map(([name, given]) => [name, isBlob(given) ? () => blobSource(given) : given]);
  const memory = filesInMemory({ named, standard: standardOf(standard, output, post), output: output.write });
  const within = withMostOutput(memory, limits.output ?? Infinity);
  const began = performance.now();
  const end = ended(module, invocation, within, limits);
  output.flush();
  const written = memory.written().map(([name, bytes]) => [name, new Uint8Array(bytes)]);
  post({ end: { ...end, isOutputFull: within.isReached(), milliseconds: performance.now() - began, written } });
}
