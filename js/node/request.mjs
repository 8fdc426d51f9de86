// What a command line of awk.mjs asks for.

import { utf8 } from "../core/bytes.mjs";
import { fenceOf } from "./fences.mjs";

/** The words of the command line can not be used. */
export class UsageError extends Error {}

const MOST_NUMBER = 2n ** 64n - 1n;

/** A word as a terminal may show it: control characters are written as in a script. */
export const plain = (word) => word.replace(/[\0-\x1f\x7f-\x9f]/g, (c) => `\\${c.charCodeAt(0).toString(8).padStart(3, "0")}`);

/** A number of bytes, which `awkwasm exec` takes up to 2^64 - 1. */
function bytesOf(word, option) {
  if (!/^\+?[0-9]+$/.test(word) || BigInt(word.replace("+", "")) > MOST_NUMBER) throw new UsageError(`${option} wants a number of bytes, not ${plain(word)}`);
  return Number(word);
}

const OFTEN = { value: utf8, often: true };

/** The options: what their values are, if they have one, and whether they may be given often. */
const OPTIONS = new Map([
  ["-F", OFTEN], ["-v", OFTEN], ["--may-read", OFTEN], ["--may-write", OFTEN],
  ["--most-input", { value: bytesOf }], ["--most-output", { value: bytesOf }],
  ["--no-files", {}], ["--read-only", {}], ["--only-operands", {}], ["--streams", {}],
]);

/** Whether a word is an option, or what ends them. */
const isOption = (word) => word.startsWith("-") && word !== "-";

/** The option of a word, and the text that is attached to it, or null. All that follows the letter of a short option is attached. */
function partsOf(word) {
  if (!word.startsWith("--")) return [word.slice(0, 2), word.length > 2 ? word.slice(2) : null];
  const at = word.indexOf("=");
  return at < 0 ? [word, null] : [word.slice(0, at), word.slice(at + 1)];
}

/** The value of an option, which is attached to it or the next word. The words that follow are in reverse order. */
function valueOf(option, attached, words) {
  if (attached !== null) return attached;
  if (words.length === 0 || isOption(words.at(-1))) throw new UsageError(`a value is missing after ${option}; attach one that begins with a hyphen`);
  return words.pop();
}

/** Takes an option, with its value from the words that follow it, in reverse order. */
function takeOption(word, words, given) {
  const [option, attached] = partsOf(word);
  const { value, often = false } = OPTIONS.get(option) ?? {};
  if (!OPTIONS.has(option)) throw new UsageError(`unknown option ${plain(word)}`);
  if (value === undefined && attached !== null) throw new UsageError(`${option} takes no value`);
  if (given.has(option) && !often) throw new UsageError(`${option} is given twice`);
  if (!given.has(option)) given.set(option, []);
  given.get(option).push(value === undefined ? true : value(valueOf(option, attached, words), option));
}

/** The options, and the words that are none: all that stand after the first `--`. */
function sorted(words) {
  const found = { given: new Map(), help: false, plainWords: [] };
  const left = [...words].reverse();
  while (left.length > 0 && !found.help) {
    const word = left.pop();
    if (word === "--") found.plainWords = found.plainWords.concat(left.splice(0).reverse());
    else if (word === "--help" || /^-h/.test(word)) found.help = true;
    else if (isOption(word)) takeOption(word, left, found.given);
    else found.plainWords.push(word);
  }
  return found;
}

function pairOf(assignment) {
  const at = assignment.indexOf("=");
  return at < 0 ? ["", assignment] : [assignment.slice(0, at), assignment.slice(at + 1)];
}

/** What is assigned before the script begins: for each -v, and then FS for each -F. */
const assignsOf = (all) => [...all("-v").map(pairOf), ...all("-F").map((text) => ["FS", text])];

/**
 * The request of a command line: { help }, or { module, operands, assigns, fence, mostInput, mostOutput, streams }, in which a limit that is not given is
 * null. Words are ordinary strings, and texts come out, but for the module's name.
 */
export function requestOf(words) {
  const { given, help, plainWords } = sorted([...words]);
  if (help) return { help };
  if (plainWords.length === 0) throw new UsageError("the module is missing");
  const all = (option) => given.get(option) ?? [];
  const [module, operands, streams] = [plainWords[0], plainWords.slice(1).map((word) => utf8(word)), given.has("--streams")];
  const fence = fenceOf({
    noFiles: given.has("--no-files"), readOnly: given.has("--read-only"), operands: given.has("--only-operands") ? operands : null,
    mayRead: all("--may-read"), mayWrite: all("--may-write"), streams,
  });
  return { module, operands, assigns: assignsOf(all), fence, mostInput: all("--most-input")[0] ?? null, mostOutput: all("--most-output")[0] ?? null, streams };
}
