// Types of the package for Node.js.

import type { Files, Outlet, Text } from "./core.js";
import type { StartOptions, Started } from "./start.js";

export * from "./core.js";
export * from "./start.js";

/** Starts a run in a worker. */
export function start(options: StartOptions): Started;

/** The files of the machine, and the standard streams of the process. */
export const files: Files;

/** The standard error of the process. */
export const errors: Outlet;

/** The same files behind a fence: a name that is not taken does not open. Without the functions no name is. */
export function fenced(fence: { mayRead?: (name: Text) => boolean; mayWrite?: (name: Text) => boolean }, inner?: Files): Files;

/** The environment of the process, sorted by name. */
export function environmentOf(env?: Record<string, string | undefined>): [Text, Text][];
