// Types of the package for browsers.

import type { StartOptions, Started } from "./start.js";

export * from "./core.js";
export * from "./start.js";

/** Starts a run in a worker. `newWorker` makes it, if it is not to be loaded from this folder. */
export function start(options: StartOptions, newWorker?: () => Worker): Started;
