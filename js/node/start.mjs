// Runs in a worker of Node.js, with limits.

import { Worker } from "node:worker_threads";

import { startIn } from "../worker/client.mjs";

/** Calls of functions nest up to 10,000 deep, so the usual stack of a thread is too small for some scripts. */
export const STACK = { stackSizeMb: 64 };

/** A worker, as `startIn` uses it. */
function newWorker() {
  // the caller's options of Node.js, as --input-type, are not for the worker
  const worker = new Worker(new URL("./worker.mjs", import.meta.url), { execArgv: [], resourceLimits: STACK });
  const adaptor = {
    takesBlobs: false,
    onMessage: () => {},
    onError: () => {},
    post: (message) => worker.postMessage(message),
    terminate: () => worker.terminate(),
  };
  worker.on("message", (told) => adaptor.onMessage(told));
  worker.on("error", (error) => {
    if (error.code !== "ERR_WORKER_OUT_OF_MEMORY") return adaptor.onError(error);
    return adaptor.onMessage({ end: { kind: "memory", status: 5, name: "NoMemory", isOutputFull: false, written: [] } });
  });
  return adaptor;
}

/** Starts a run in a worker: see the README. */
export function start(options) {
  return startIn(newWorker, options);
}
