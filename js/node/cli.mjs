// The command line of awk.mjs. Its words and statuses are those of `awkwasm exec`.

import { readFileSync, writeSync } from "node:fs";

import { LoadError, errors, fenced, files, load, run, withMostInput, withMostOutput, withStreams } from "./index.mjs";
import { UsageError, plain, requestOf } from "./request.mjs";
import { areUtf8, environment } from "./words.mjs";

const USAGE = `usage: node awk.mjs [OPTIONS] MODULE WORDS..

Runs a module that awkwasm compiled. WORDS are files to read, - for the standard input, and assignments NAME=TEXT. A word that
begins with a hyphen is an option wherever it stands, but not after --.

  -F TEXT              Separate fields by this text: a last -v FS=TEXT
  -v NAME=TEXT         Assign to a variable before the script begins
  --no-files           Open no file
  --read-only          Open no file for writing
  --only-operands      Open only files named in WORDS, for reading
  --may-read NAME      Allow reading this file; others only as the options above allow
  --may-write NAME     Allow writing this file, and no others
  --most-input BYTES   Read at most this many bytes
  --most-output BYTES  Write at most this many bytes
  --streams            /dev/stdin, /dev/stdout and /dev/stderr are the program's own streams
  -h, --help           Print this text
`;
const REFUSED = 3;
const WRONG_WORDS = 8;

/** The module's file can not be read, or the text of `--help` can not be written. */
class FileError extends Error {}

function loaded(path) {
  try {
    return load(readFileSync(path));
  } catch (error) {
    if (error instanceof LoadError || error instanceof WebAssembly.CompileError) throw error;
    throw new FileError(`cannot read ${plain(path)} (${error.code})`);
  }
}

function printUsage() {
  try {
    files.output.write(new TextEncoder().encode(USAGE));
  } catch (error) {
    throw new FileError(`cannot write (${error.code})`);
  }
}

function message(text) {
  try {
    writeSync(2, text);
  } catch {
    // a standard error that fails changes no status
  }
}

/** The files of the machine, as far as a request lets a script reach them. */
function filesOf({ fence, mostInput, mostOutput, streams }) {
  let within = streams ? withStreams(files, errors) : files;
  if (mostInput !== null) within = withMostInput(within, mostInput);
  if (mostOutput !== null) within = withMostOutput(within, mostOutput);
  return fenced(fence, within);
}

/** Runs the module that the words ask for, and answers the status. */
function runWords(words) {
  if (!areUtf8(words)) throw new UsageError("a word is not UTF-8");
  const request = requestOf(words);
  if (request.help) {
    printUsage();
    return 0;
  }
  const { operands, assigns } = request;
  const end = run(loaded(request.module), { operands, assigns, environment: environment() }, filesOf(request));
  if (end.name !== null) message(`awkwasm: ${end.name}\n`);
  return end.status;
}

/** The status of a command line; errors go to the standard error. */
export function main(words) {
  try {
    return runWords(words);
  } catch (error) {
    if (error instanceof LoadError || error instanceof WebAssembly.CompileError) {
      message(`awkwasm: ${error.message}\n`);
      return REFUSED;
    }
    if (!(error instanceof UsageError || error instanceof FileError)) throw error;
    message(`awk.mjs: ${error.message}\n${error instanceof UsageError ? `\n${USAGE}` : ""}`);
    return WRONG_WORDS;
  }
}
