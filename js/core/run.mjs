// Runs a module over a host.

import { LoadError } from "./binary.mjs";
import { Host, NoMemory, Trap } from "./host.mjs";
import { Loaded, OWN, load } from "./load.mjs";
import { textOf } from "./values.mjs";

const MOST_FRAMES = 10_000;

/** The statuses that `awkwasm exec` ends with. */
export const STATUS = { fault: 2, refused: 3, steps: 4, memory: 5, depth: 6, trap: 7 };

const endOf = (kind, name) => ({ kind, status: STATUS[kind], name });

/** What was being read when an error came: the record's number in its file and in all, the file's name, and the record. */
function readingOf(host) {
  const [nr, fnr, filename] = ["NR", "FNR", "FILENAME"].map((name) => textOf(host.specials[name]));
  return { nr, fnr, filename, record: textOf(host.record.whole()) };
}

/** How a run ended that threw. */
function endOfThrown(error, exports) {
  if (exports[OWN.steps].value < 0n) return endOf("steps", "OutOfSteps");
  if (exports[OWN.depth].value > MOST_FRAMES) return endOf("depth", "Exhausted");
  if (error instanceof Trap || error instanceof WebAssembly.RuntimeError) return endOf("trap", error.message);
  if (error instanceof NoMemory) return endOf("memory", "NoMemory");
  if (!(error instanceof RangeError || error?.name === "InternalError")) throw error;
  return /stack|recursion/.test(error.message) ? endOf("depth", "Exhausted") : endOf("memory", "NoMemory");
}

/** An instance over the host's imports, which `load` has checked. */
function instanceOf(loaded, host) {
  try {
    return new WebAssembly.Instance(loaded.module, host.imports());
  } catch (error) {
    throw error instanceof WebAssembly.RuntimeError || error instanceof WebAssembly.LinkError ? new LoadError("SegmentBounds") : error;
  }
}

/** Calls the functions of a module, and says how that ended. */
function called(exports, host) {
  let result;
  try {
    exports[OWN.start]?.();
    result = exports.main();
  } catch (error) {
    return endOfThrown(error, exports);
  }
  return host.fault === null ? { kind: "ended", status: result & 255, name: null } : endOf("fault", host.fault);
}

/**
 * Runs a module in an invocation, { operands, assigns, environment }, over files, and answers how it ended: { kind, status, name }, and `place` and
 * `reading` unless it ended by itself. `module` is what `load` gave, or the bytes of a module. `host` may be one that was made for this invocation.
 */
export function run(module, invocation, files, host = new Host(invocation, files)) {
  const loaded = module instanceof Loaded ? module : load(module);
  const { exports } = instanceOf(loaded, host);
  host.memory = () => exports[OWN.memory] ?? null;
  host.place = () => exports[OWN.place].value;
  try {
    const end = called(exports, host);
    if (end.kind === "ended") return end;
    const place = end.kind === "fault" ? host.faultPlace : host.place();
    return { ...end, place: loaded.pointOf(place), reading: readingOf(host) };
  } finally {
    host.release();
  }
}
