// Runs a module in a worker, from outside it.

import { joined, utf8 } from "../core/bytes.mjs";
import { newPipe, partsOf, pipeFeeder } from "./pipe.mjs";

// engines take a longer time for none
const LONGEST_TIMER = 2 ** 31 - 1;

const isStream = (given) => typeof given?.getReader === "function" || given?.[Symbol.asyncIterator] !== undefined;

/** All of a stream, for engines in which a page can not share memory with a worker. */
async function wholeOf(stream) {
  const parts = [];
  const reader = partsOf(stream);
  for (let part = await reader.next(); !part.done; part = await reader.next()) {
    parts.push(typeof part.value === "string" ? new TextEncoder().encode(part.value) : part.value);
  }
  return joined(parts);
}

const bytesIn = (given) => (typeof given === "string" ? new TextEncoder().encode(given) : given);

async function plainOf(given, worker) {
  const isBlob = typeof Blob !== "undefined" && given instanceof Blob;
  return isBlob && !worker.takesBlobs ? new Uint8Array(await given.arrayBuffer()) : bytesIn(given);
}

/** What the worker gets as the standard input, and what feeds it. */
async function standardOf(standard, worker) {
  const nothing = { feed() {}, close() {} };
  if (!isStream(standard)) return { standard: await plainOf(standard, worker), ...nothing };
  if (typeof SharedArrayBuffer === "undefined") return { standard: await wholeOf(standard), ...nothing };
  const pipe = newPipe();
  return { standard: { pipe }, ...pipeFeeder(pipe, standard) };
}

const pairsOf = (given) => (Array.isArray(given) ? given : Object.entries(given)).map((pair) => pair.map((word) => utf8(word)));

async function messageOf({ module, operands = [], assigns = [], environment = [], files = [], standard = "", limits = {} }, worker) {
  const invocation = { operands: operands.map((it) => utf8(it)), assigns: pairsOf(assigns), environment: pairsOf(environment) };
  const listed = Array.isArray(files) ? files : Object.entries(files);
  const named = await Promise.all(listed.map(async ([name, given]) => [utf8(name), await plainOf(given, worker)]));
  const input = await standardOf(standard, worker);
  const bytes = module instanceof Uint8Array ? module : new Uint8Array(module);
  return { message: { module: bytes, invocation, files: named, standard: input.standard, limits }, feed: input.feed, close: input.close };
}

/** Posts the job, and follows the worker up to its end. */
function follow(worker, { message, feed }, onOutput, stopped) {
  return new Promise((resolve, reject) => {
    stopped.resolve = resolve;
    worker.onError = (error) => {
      worker.onMessage = () => {};
      reject(error);
    };
    worker.onMessage = (told) => {
      try {
        if (told.output !== undefined) onOutput(told.output);
        else if (told.wants) feed();
        else resolve(told.end);
      } catch (error) {
        worker.onError(error);
      }
    };
    worker.post(message);
  });
}

function endOf(kind, name) {
  return { kind, status: null, name, isOutputFull: false, written: [] };
}

/**
 * Starts a run in a worker that `newWorker` makes. It answers { end, stop }: a promise of how the run ended, and a function that ends it at once.
 * Words, names and texts are ordinary strings here, and go in as UTF-8.
 */
export function startIn(newWorker, options) {
  const stopped = { resolve: null, end: null };
  const stopAs = (end) => {
    stopped.end ??= end;
    stopped.resolve?.(stopped.end);
  };
  const parts = [];
  const onOutput = options.onOutput ?? ((part) => parts.push(part));
  const whole = async () => {
    const worker = newWorker();
    const { seconds } = options.limits ?? {};
    let timer;
    let job;
    try {
      job = await messageOf(options, worker);
      if (stopped.end !== null) return stopped.end;
      if (seconds !== undefined) timer = setTimeout(() => stopAs(endOf("time", "OutOfTime")), Math.min(1000 * seconds, LONGEST_TIMER));
      return await follow(worker, job, onOutput, stopped);
    } finally {
      clearTimeout(timer);
      worker.terminate();
      // a stream that fails now fails nobody
      Promise.resolve(job?.close()).catch(() => {});
    }
  };
  const end = whole().then((it) => ({ ...it, output: joined(parts) }));
  return { end, stop: () => stopAs(endOf("stopped", "Stopped")) };
}
