// The core: the 56 imports of compiled modules, and the run of a module. It uses nothing of Node.js or of a browser.

export { bytesOfText, isUtf8, shown, textOfBytes, utf8 } from "./bytes.mjs";
export { LoadError } from "./binary.mjs";
export { Host } from "./host.mjs";
export { IMPORTS } from "./imports.mjs";
export { withMostInput, withMostOutput } from "./limits.mjs";
export { Loaded, load } from "./load.mjs";
export { filesInMemory, sourceOf } from "./memory.mjs";
export { linesOf } from "./places.mjs";
export { STATUS, run } from "./run.mjs";
export { withStreams } from "./streams.mjs";
export { FAULTS } from "./values.mjs";
