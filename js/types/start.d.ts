// Types of runs in a worker. Strings are ordinary strings here, and go in as UTF-8.

import type { End } from "./core.js";

type Contents = Uint8Array | string | Blob;
type Pairs = Record<string, string> | [string, string][];

export interface StartOptions {
  /** The bytes of a module. */
  module: Uint8Array | ArrayBuffer;
  operands?: string[];
  assigns?: Pairs;
  environment?: Pairs;
  /** Files that the script may open, by name. What it writes stays in memory. */
  files?: Record<string, Contents> | [string, Contents][];
  /** The standard input. A stream is read as the script asks for it. */
  standard?: Contents | ReadableStream<Uint8Array> | AsyncIterable<Uint8Array | string>;
  limits?: {
    /** Seconds of the clock. */
    seconds?: number;
    /** Bytes of output, files included. */
    output?: number;
    /** Program points, turns of loops and calls. */
    steps?: number;
  };
  /** Gets each part of the standard output. Without it, `output` has all of it at the end. If it throws, `end` is rejected. */
  onOutput?: (bytes: Uint8Array) => void;
}

interface InWorker {
  output: Uint8Array;
  /** Whether the limit on output was reached. */
  isOutputFull: boolean;
  /** The files that were written. Names are texts of bytes. */
  written: [string, Uint8Array][];
  /** How long it ran, and how many program points each function of the module has, `main` last: both only if the module ran to an end. */
  milliseconds?: number;
  places?: number[];
}

/** How a run in a worker ended: as any run, or because it was refused, its time was over, or it was stopped. */
export type StartedEnd = InWorker & (End
  | { kind: "refused"; status: 3; name: string }
  | { kind: "time"; status: null; name: "OutOfTime" }
  | { kind: "stopped"; status: null; name: "Stopped" });

export interface Started {
  end: Promise<StartedEnd>;
  /** Ends the run at once. */
  stop(): void;
}
