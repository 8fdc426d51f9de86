// Runs in a worker of a browser, with limits. Files are in memory, or the browser's own.

import { startIn } from "../worker/client.mjs";

export * from "../core/index.mjs";

/** A worker, as `startIn` uses it. */
function adapted(worker) {
  const adaptor = {
    takesBlobs: true,
    onMessage: () => {},
    onError: () => {},
    post: (message) => worker.postMessage(message),
    terminate: () => worker.terminate(),
  };
  worker.onmessage = ({ data }) => adaptor.onMessage(data);
  worker.onerror = (event) => adaptor.onError(new Error(event.message || "the worker did not start"));
  return adaptor;
}

const ownWorker = () => new Worker(new URL("./worker.mjs", import.meta.url), { type: "module" });

/** Starts a run in a worker: see the README. `newWorker` makes the worker, if it is not to be loaded from this folder. */
export function start(options, newWorker = ownWorker) {
  return startIn(() => adapted(newWorker()), options);
}
