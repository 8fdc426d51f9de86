// Which names the options of a command line let through.

import { STREAM_NAMES } from "../core/streams.mjs";

/**
 * The fence of the options of `awk.mjs`, as `fenced` takes it. Each option takes names away, but for names that are listed and names of streams. A list
 * that is not empty keeps out what it does not list.
 */
export function fenceOf({ noFiles = false, readOnly = false, operands = null, mayRead = [], mayWrite = [], streams = false }) {
  const [listedToRead, listedToWrite] = [new Set(mayRead), new Set(mayWrite)];
  const among = operands === null ? null : new Set(operands);
  const readsUnlisted = (name) => !noFiles && (among === null ? listedToRead.size === 0 : among.has(name));
  const writesUnlisted = !noFiles && !readOnly && among === null && listedToWrite.size === 0;
  return {
    mayRead: (name) => (streams && name === STREAM_NAMES.input) || listedToRead.has(name) || readsUnlisted(name),
    mayWrite: (name) => (streams && (name === STREAM_NAMES.output || name === STREAM_NAMES.errors)) || listedToWrite.has(name) || writesUnlisted,
  };
}
